// A client that asks a server of HTTP as fast as it is answered, over some connections at once.
//
//     http_load PORT CONNECTIONS TIMES REQUESTS
//
// The file REQUESTS has the requests, each behind a line with its length in bytes. Each connection sends its share of
// them, the first one the first, the next one the second and so on, and begins anew so many TIMES; it sends one once
// the reply to the one before was read. Prints the seconds between the first connect and the last reply, and how many
// bytes of bodies came. Ends with status 1 at a reply whose code isn't 200, or where a connection fails.
#include <arpa/inet.h>
#include <netinet/tcp.h>
#include <sys/socket.h>
#include <unistd.h>

#include <algorithm>
#include <atomic>
#include <chrono>
#include <cstdio>
#include <cstdlib>
#include <cstring>
#include <fstream>
#include <iterator>
#include <string>
#include <string_view>
#include <thread>
#include <vector>

using std::string;
using std::string_view;

static void expect(bool is_so, const char *what) {
  if (is_so) return;
  fprintf(stderr, "http_load: this isn't %s\n", what);
  _exit(1);
}

static std::vector<string_view> requests_in(string_view text) {
  std::vector<string_view> requests;
  while (!text.empty()) {
    size_t line = text.find('\n');
    expect(line != string::npos, "a line with a length");
    size_t length = strtoul(text.data(), nullptr, 10);
    requests.push_back(text.substr(line + 1, length));
    text.remove_prefix(line + 1 + length);
  }
  return requests;
}

class Connection {
  const int wire = socket(AF_INET, SOCK_STREAM, 0);
  std::vector<char> room = std::vector<char>(1 << 18);
  size_t come = 0;

  void read_more() {
    ssize_t count = read(wire, room.data() + come, room.size() - come);
    expect(count > 0, "a whole reply");
    come += (size_t)count;
  }

  // Reads a head; answers the length of the body behind it, of which the front may have come.
  size_t read_head() {
    const char *end;
    while ((end = (const char *)memmem(room.data(), come, "\r\n\r\n", 4)) == nullptr) read_more();
    string head(room.data(), (size_t)(end + 4 - room.data()));
    expect(head.compare(0, 12, "HTTP/1.1 200") == 0, "a reply with the code 200");
    size_t length = head.find("\r\nContent-Length: ");
    expect(length != string::npos, "a head with a length");
    come -= head.size();
    memmove(room.data(), room.data() + head.size(), come);
    return strtoul(head.c_str() + length + 18, nullptr, 10);
  }

 public:
  explicit Connection(uint16_t port) {
    sockaddr_in address = {};
    address.sin_family = AF_INET;
    address.sin_port = htons(port);
    address.sin_addr.s_addr = htonl(INADDR_LOOPBACK);
    expect(connect(wire, (sockaddr *)&address, sizeof address) == 0, "a port of a server");
    int is_on = 1;
    setsockopt(wire, IPPROTO_TCP, TCP_NODELAY, &is_on, sizeof is_on);
  }

  ~Connection() { close(wire); }

  // Sends a request; answers how many bytes the body of its reply has.
  size_t ask(string_view request) {
    while (!request.empty()) {
      ssize_t count = send(wire, request.data(), request.size(), MSG_NOSIGNAL);
      expect(count > 0, "a connection that takes a request");
      request.remove_prefix((size_t)count);
    }
    size_t length = read_head(), left = length;
    for (;;) {
      size_t taken = std::min(left, come);
      left -= taken;
      come -= taken;
      memmove(room.data(), room.data() + taken, come);
      if (left == 0) return length;
      read_more();
    }
  }
};

int main(int count, char **words) {
  if (count != 5) return 2;
  const uint16_t port = (uint16_t)atoi(words[1]);
  const size_t connections = strtoul(words[2], nullptr, 10), times = strtoul(words[3], nullptr, 10);
  std::ifstream file(words[4], std::ios::binary);
  const string text((std::istreambuf_iterator<char>(file)), {});
  const auto requests = requests_in(text);
  std::atomic<size_t> bytes{0};
  const auto start = std::chrono::steady_clock::now();
  std::vector<std::thread> threads;
  for (size_t first = 0; first < connections; first++) {
    threads.emplace_back([&, first] {
      Connection one(port);
      for (size_t time = 0; time < times; time++)
        for (size_t place = first; place < requests.size(); place += connections) bytes += one.ask(requests[place]);
    });
  }
  for (auto &thread : threads) thread.join();
  const std::chrono::duration<double> seconds = std::chrono::steady_clock::now() - start;
  printf("%.6f %zu\n", seconds.count(), bytes.load());
}
