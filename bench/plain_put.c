/* A server that does the least that an upload of a blob over a connection costs: it reads a request of so many bytes,
 * takes the digest of a record of so many, appends that to a file, syncs it, and sends a reply of the length of a true
 * one.
 *
 *     plain_put PORT FILE REQUEST RECORD REPLY
 *
 * Each connection has a thread of its own; one at a time appends and syncs. It serves until it is killed.
 */
#include <arpa/inet.h>
#include <fcntl.h>
#include <netinet/tcp.h>
#include <openssl/evp.h>
#include <pthread.h>
#include <stdio.h>
#include <stdlib.h>
#include <string.h>
#include <sys/socket.h>
#include <unistd.h>

static int file;
static ssize_t request, record;
static char reply[4096];
static EVP_MD *sha224;
static pthread_mutex_t turn = PTHREAD_MUTEX_INITIALIZER;

/* Takes the digest of a record, and looks at it, so that it isn't left out. */
static int is_digested(const char *bytes) {
  unsigned char digest[EVP_MAX_MD_SIZE];
  unsigned length = 0;
  return EVP_Digest(bytes, (size_t)record, digest, &length, sha224, NULL) == 1 && length == 28;
}

/* Whether a request came whole. */
static int read_request(int wire, char *bytes) {
  for (ssize_t come = 0; come < request;) {
    ssize_t count = read(wire, bytes + come, (size_t)(request - come));
    if (count <= 0) return 0;
    come += count;
  }
  return 1;
}

static void *serve(void *given) {
  int wire = (int)(long)given;
  char *bytes = malloc((size_t)(request > record ? request : record));
  while (bytes != NULL && read_request(wire, bytes) && is_digested(bytes)) {
    pthread_mutex_lock(&turn);
    int is_kept = write(file, bytes, (size_t)record) == record && fdatasync(file) == 0;
    pthread_mutex_unlock(&turn);
    if (!is_kept || send(wire, reply, strlen(reply), MSG_NOSIGNAL) < 0) break;
  }
  free(bytes);
  close(wire);
  return NULL;
}

int main(int count, char **words) {
  if (count != 6) return 2;
  sha224 = EVP_MD_fetch(NULL, "SHA224", NULL);
  file = open(words[2], O_WRONLY | O_CREAT | O_APPEND, 0666);
  request = atol(words[3]);
  record = atol(words[4]);
  int length = atoi(words[5]);
  snprintf(reply, sizeof reply, "HTTP/1.1 200 OK\r\nContent-Length: %d\r\n\r\n%0*d", length, length, 0);
  struct sockaddr_in address = {.sin_family = AF_INET, .sin_port = htons((unsigned short)atoi(words[1]))};
  address.sin_addr.s_addr = htonl(INADDR_LOOPBACK);
  int listener = socket(AF_INET, SOCK_STREAM, 0), is_on = 1;
  setsockopt(listener, SOL_SOCKET, SO_REUSEADDR, &is_on, sizeof is_on);
  if (sha224 == NULL || file < 0 || bind(listener, (struct sockaddr *)&address, sizeof address) != 0) return 1;
  if (listen(listener, 64) != 0) return 1;
  for (;;) {
    int wire = accept(listener, NULL, NULL);
    pthread_t thread;
    setsockopt(wire, IPPROTO_TCP, TCP_NODELAY, &is_on, sizeof is_on);
    if (wire < 0 || pthread_create(&thread, NULL, serve, (void *)(long)wire) != 0) return 1;
    pthread_detach(thread);
  }
}
