// A peer of a relay that takes its time. It connects to the port of 127.0.0.1 and tells so by a line, says what stands
// in its input, and takes what it is answered, until the connection is lost:
//
//     peer PORT SAYS TAKES <TEXT
//
// SAYS is how many milliseconds pass between two bytes that it says, or 0 where it says all at once. TAKES is how many
// bytes it takes at once, each 20 milliseconds, or 0 where it takes nothing.
#include <arpa/inet.h>
#include <errno.h>
#include <netinet/in.h>
#include <stdio.h>
#include <stdlib.h>
#include <string.h>
#include <sys/socket.h>
#include <time.h>
#include <unistd.h>

static char text[1 << 20];
static char taken[1 << 20];

static void pause_for(long milliseconds) {
    struct timespec time = {milliseconds / 1000, milliseconds % 1000 * 1000000};
    nanosleep(&time, NULL);
}

// A connection to the port, with little room for what is not taken.
static int connected_to(int port) {
    int peer = socket(AF_INET, SOCK_STREAM, 0), room = 4096;
    struct sockaddr_in address = {.sin_family = AF_INET, .sin_port = htons(port)};
    inet_pton(AF_INET, "127.0.0.1", &address.sin_addr);
    setsockopt(peer, SOL_SOCKET, SO_RCVBUF, &room, sizeof room);
    if (connect(peer, (struct sockaddr *)&address, sizeof address) != 0) {
        perror("peer");
        exit(1);
    }
    return peer;
}

// Takes some bytes where there are any. Whether the connection is there still.
static int takes(int peer, size_t most) {
    ssize_t got = most > 0 ? recv(peer, taken, most, MSG_DONTWAIT) : -1;
    return got > 0 || (got < 0 && (most == 0 || errno == EAGAIN));
}

int main(int words, char **word) {
    if (words != 4) return 1;
    size_t length = fread(text, 1, sizeof text, stdin), said = 0;
    long says = atol(word[2]), takes_at_once = atol(word[3]);
    int peer = connected_to(atoi(word[1]));
    puts("connected");
    fflush(stdout);
    while (takes(peer, takes_at_once)) {
        if (said < length) {
            ssize_t more = send(peer, text + said, says > 0 ? 1 : length - said, MSG_NOSIGNAL);
            if (more < 0) break;
            said += more;
        }
        pause_for(says > 0 ? says : 20);
    }
    puts("lost");
    return 0;
}
