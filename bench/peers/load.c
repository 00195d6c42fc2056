// A client for bench/peer.sh: so many links, each of which sends one request again and again, the next once the last is
// answered with 200, and prints how many requests a second were answered on all links.
// usage: load PORT LINKS REQUESTS VERB TARGET [BODY]      (requests a link)
#define _GNU_SOURCE
#include <arpa/inet.h>
#include <netinet/tcp.h>
#include <pthread.h>
#include <stdio.h>
#include <stdlib.h>
#include <string.h>
#include <sys/socket.h>
#include <time.h>
#include <unistd.h>

static int port, requests;
static char request[8192];
static size_t length;

static void give_up(const char *why) {
  fprintf(stderr, "load: %s\n", why);
  exit(1);
}

static int dial(void) {
  int link = socket(AF_INET, SOCK_STREAM, 0), on = 1;
  struct sockaddr_in place = {.sin_family = AF_INET, .sin_port = htons(port)};
  inet_pton(AF_INET, "127.0.0.1", &place.sin_addr);
  if (connect(link, (struct sockaddr *)&place, sizeof place)) give_up("no server");
  setsockopt(link, IPPROTO_TCP, TCP_NODELAY, &on, sizeof on);
  return link;
}

// Reads one answer, whose status is 200.
static void read_answer(int link, char *room, size_t size) {
  size_t have = 0;
  for (;;) {
    ssize_t count = read(link, room + have, size - 1 - have);
    if (count <= 0) give_up("the link was closed");
    room[have += count] = 0;
    char *end = strstr(room, "\r\n\r\n"), *field = strcasestr(room, "\r\ncontent-length:");
    if (!end || !field) continue;
    if (have < (size_t)(end + 4 - room) + strtoul(field + 17, 0, 10)) continue;
    if (memcmp(room, "HTTP/1.1 200", 12)) give_up("another status than 200");
    return;
  }
}

static void *ask(void *unused) {
  char room[65536];
  int link = dial();
  for (int i = 0; i < requests; i++) {
    if (write(link, request, length) != (ssize_t)length) give_up("a short write");
    read_answer(link, room, sizeof room);
  }
  close(link);
  return unused;
}

int main(int count, char **words) {
  if (count < 6) give_up("PORT LINKS REQUESTS VERB TARGET [BODY]");
  int links = atoi(words[2]);
  const char *body = count > 6 ? words[6] : "";
  port = atoi(words[1]);
  requests = atoi(words[3]);
  length = snprintf(request, sizeof request, "%s %s HTTP/1.1\r\nHost: h\r\n", words[4], words[5]);
  if (*body)
    length += snprintf(request + length, sizeof request - length, "Content-Type: text/xml\r\nContent-Length: %zu\r\n", strlen(body));
  length += snprintf(request + length, sizeof request - length, "\r\n%s", body);
  if (links < 1 || links > 64 || length >= sizeof request) give_up("1 to 64 links, and a short body");
  pthread_t threads[64];
  struct timespec from, to;
  clock_gettime(CLOCK_MONOTONIC, &from);
  for (int i = 0; i < links; i++) pthread_create(&threads[i], 0, ask, 0);
  for (int i = 0; i < links; i++) pthread_join(threads[i], 0);
  clock_gettime(CLOCK_MONOTONIC, &to);
  printf("%.0f\n", links * (double)requests / (to.tv_sec - from.tv_sec + (to.tv_nsec - from.tv_nsec) / 1e9));
}
