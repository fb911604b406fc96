/* Sends each datagram back, with the two system calls that a plain server makes: echo ADDRESS PORT SECONDS
 * It takes addresses of 127.0.0.0/8 alone, and ends after at most 60 seconds. */
#include <arpa/inet.h>
#include <stdlib.h>
#include <sys/socket.h>
#include <sys/time.h>
#include <time.h>

static char buffer[65536];

int main(int count, char **words)
{
    if (count != 4 || atoi(words[3]) > 60)
        return 2;
    struct sockaddr_in here = {.sin_family = AF_INET, .sin_port = htons((unsigned short)atoi(words[2]))};
    if (inet_pton(AF_INET, words[1], &here.sin_addr) != 1 || ntohl(here.sin_addr.s_addr) >> 24 != 127)
        return 2;
    int made = socket(AF_INET, SOCK_DGRAM, 0);
    struct timeval wait = {0, 5000};
    setsockopt(made, SOL_SOCKET, SO_RCVTIMEO, &wait, sizeof wait);
    if (bind(made, (void *)&here, sizeof here))
        return 1;
    for (time_t end = time(NULL) + atoi(words[3]); time(NULL) < end;) {
        struct sockaddr_in source;
        socklen_t room = sizeof source;
        ssize_t length = recvfrom(made, buffer, sizeof buffer, 0, (void *)&source, &room);
        if (length >= 0)
            sendto(made, buffer, (size_t)length, 0, (void *)&source, room);
    }
    return 0;
}
