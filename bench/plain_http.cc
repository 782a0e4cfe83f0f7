// Serves one connection as `lab http` does, in the plainest way that isn't slow: a hash table, OpenSSL, and a reader of
// heads and multipart bodies (docs/http.md, docs/formats/multipart.md) that knows the requests of http_speed.py alone.
//
//     plain_http http PACK KEYRING PIECE
//
// Around that it does what `lab http` does: it hashes every blob of the pack, reads standard input to its end, takes at
// most PIECE bytes of it at a time (all at once where that is 0), and writes the replies once all of them are there. It
// keeps no index of what blobs say, and so doesn't look at KEYRING. It ends with status 2 at the first request that it
// can't answer, or that isn't whole.
#include <openssl/evp.h>
#include <strings.h>
#include <sys/stat.h>

#include <algorithm>
#include <array>
#include <cctype>
#include <charconv>
#include <cstdio>
#include <cstdlib>
#include <cstring>
#include <string>
#include <string_view>
#include <unordered_map>
#include <utility>
#include <vector>

using std::string;
using std::string_view;

static void expect(bool is_so, const char *what) {
  if (is_so) return;
  fprintf(stderr, "plain_http: this isn't %s\n", what);
  exit(2);
}

static string read_all(FILE *file) {
  string all;
  struct stat status;
  expect(file != nullptr && fstat(fileno(file), &status) == 0, "a file");
  all.reserve((size_t)status.st_size);
  static char piece[65536];
  while (size_t length = fread(piece, 1, sizeof piece, file)) all.append(piece, length);
  expect(!ferror(file), "a file that can be read");
  return all;
}

static string ref_of(string_view bytes) {
  static EVP_MD *const sha224 = EVP_MD_fetch(nullptr, "SHA224", nullptr);
  static EVP_MD_CTX *const context = EVP_MD_CTX_new();
  static const char *digits = "0123456789abcdef";
  std::array<unsigned char, 28> digest;
  EVP_DigestInit_ex(context, sha224, nullptr);
  EVP_DigestUpdate(context, bytes.data(), bytes.size());
  EVP_DigestFinal_ex(context, digest.data(), nullptr);
  string text = "sha224-";
  for (unsigned char byte : digest) {
    text += digits[byte >> 4];
    text += digits[byte & 15];
  }
  return text;
}

// Texts

static size_t number(string_view digits) {
  size_t value = 0;
  auto [end, fault] = std::from_chars(digits.begin(), digits.end(), value);
  expect(fault == std::errc() && end == digits.end(), "a number");
  return value;
}

static bool is_token(string_view text) {
  static const auto in_tokens = [] {
    std::array<bool, 256> table{};
    for (unsigned char byte : string_view("!#$%&'*+-.^_`|~")) table[byte] = true;
    for (int byte = 0; byte < 128; byte++) table[byte] |= isalnum(byte) != 0;
    return table;
  }();
  return !text.empty() && std::all_of(text.begin(), text.end(), [](unsigned char byte) { return in_tokens[byte]; });
}

static bool is_printed(string_view text, unsigned char least) {
  return std::all_of(text.begin(), text.end(), [=](unsigned char byte) { return byte >= least && byte != 127; });
}

static bool same(string_view text, string_view other) {
  return text.size() == other.size() && strncasecmp(text.data(), other.data(), text.size()) == 0;
}

static string_view trimmed(string_view text) {
  size_t first = text.find_first_not_of(" \t");
  if (first == string::npos) return {};
  return text.substr(first, text.find_last_not_of(" \t") + 1 - first);
}

// Takes the text up to a mark off the front of another, and the mark too.
static string_view split_off(string_view &text, string_view mark, const char *what) {
  size_t end = text.find(mark);
  expect(end != string::npos, what);
  string_view front = text.substr(0, end);
  text.remove_prefix(end + mark.size());
  return front;
}

// Hands the name and the value of each header line to a function. The lines end with an empty one.
template <class Take>
static void each_header(string_view lines, Take take) {
  for (string_view line; !(line = split_off(lines, "\r\n", "a line")).empty();) {
    string_view name = split_off(line, ":", "a header"), value = trimmed(line);
    expect(is_token(name) && is_printed(value, ' '), "a header");
    take(name, value);
  }
}

// The first parameter of a name in a value that begins with a word.
static string_view parameter(string_view value, string_view word, string_view wanted) {
  expect(same(value.substr(0, word.size()), word), "a value of the right kind");
  string_view rest = trimmed(value.substr(word.size())), found;
  while (!rest.empty()) {
    expect(rest[0] == ';', "a parameter");
    rest = trimmed(rest.substr(1));
    string_view name = split_off(rest, "=", "a parameter"), its_value;
    if (!rest.empty() && rest[0] == '"') {
      rest.remove_prefix(1);
      its_value = split_off(rest, "\"", "a value in quotes");
    } else {
      its_value = rest.substr(0, rest.find_first_of("; \t"));
      rest.remove_prefix(its_value.size());
      expect(is_token(its_value), "a value without quotes");
    }
    expect(is_token(name) && its_value.find('\\') == string::npos, "a parameter");
    if (found.empty() && same(name, wanted)) found = its_value;
    rest = trimmed(rest);
  }
  return found;
}

// The bytes of a connection, of which at most a piece comes at a time

class Source {
  const string stream;
  const size_t piece;
  size_t handed = 0, at = 0;
  string come;

  bool more() {
    size_t length = std::min(piece == 0 ? stream.size() : piece, stream.size() - handed);
    come.erase(0, at);
    at = 0;
    come.append(stream, handed, length);
    handed += length;
    return length > 0;
  }

 public:
  Source(string stream, size_t piece) : stream(std::move(stream)), piece(piece) {}

  bool is_at_end() { return at == come.size() && !more(); }

  // How many bytes stand before a text.
  size_t find(string_view text) {
    for (size_t from = 0;;) {
      const char *rest = come.data() + at;
      size_t length = come.size() - at;
      if (void *found = memmem(rest + from, length - from, text.data(), text.size())) return (const char *)found - rest;
      from = length < text.size() ? 0 : length - text.size() + 1;
      expect(more(), "a whole request");
    }
  }

  // The next bytes; they are there up to the next call.
  string_view take(size_t length) {
    while (come.size() - at < length) expect(more(), "a whole request");
    at += length;
    return string_view(come).substr(at - length, length);
  }
};

struct Head {
  string_view method, target, content_type;
  size_t length = 0;
};

static Head head_of(string_view text) {
  Head head;
  string_view first = split_off(text, "\r\n", "a line");
  head.method = split_off(first, " ", "a method");
  head.target = split_off(first, " ", "a target");
  expect(is_token(head.method) && is_printed(head.target, '!') && first == "HTTP/1.1", "a first line");
  each_header(text, [&](string_view name, string_view value) {
    expect(!same(name, "transfer-encoding") && !same(name, "connection"), "a header that is known");
    if (same(name, "content-length")) head.length = number(value);
    if (same(name, "content-type") && head.content_type.empty()) head.content_type = value;
  });
  return head;
}

// The server

class Server {
  static const size_t LEAST_ROOM = 1048576;
  std::unordered_map<string, string> blobs;
  std::vector<string> replies;
  string ref;

  // Bytes are copied once, as none of the texts grows beyond its room.
  void write(string_view bytes) {
    if (replies.empty() || replies.back().capacity() - replies.back().size() < bytes.size()) {
      replies.emplace_back();
      replies.back().reserve(std::max(bytes.size(), LEAST_ROOM));
    }
    replies.back() += bytes;
  }

  void reply(const char *kind, string_view body) {
    static const char *const lines = "HTTP/1.1 200 OK\r\nContent-Type: %s\r\nContent-Length: %zu\r\n\r\n";
    char head[160];
    write(string_view(head, (size_t)snprintf(head, sizeof head, lines, kind, body.size())));
    write(body);
  }

  void get(const Head &head) {
    ref = head.target.substr(7);
    auto found = blobs.find(ref);
    expect(head.length == 0 && found != blobs.end(), "a request of a blob");
    reply("application/octet-stream", found->second);
  }

  void put(string_view name, string_view content) {
    expect(ref_of(content) == name, "a blob of this ref");
    blobs.emplace(name, content);
  }

  // A body is read as if a line end stood before it. It has no preamble.
  void upload(Source &source, size_t left, const string &boundary) {
    expect(!boundary.empty(), "a content type with a boundary");
    auto take = [&](size_t length) {
      expect(length <= left, "a body of parts");
      left -= length;
      return source.take(length);
    };
    const string mark = "\r\n--" + boundary;
    string received;
    expect(take(mark.size() - 2) == string_view(mark).substr(2), "a body of parts");
    for (string_view behind; (behind = take(2)) != "--"; take(mark.size())) {
      expect(behind == "\r\n", "a body of parts");
      string name;
      each_header(take(source.find("\r\n\r\n") + 4), [&](string_view header, string_view value) {
        if (name.empty() && same(header, "content-disposition")) name = parameter(value, "form-data", "name");
      });
      string_view content = take(source.find(mark));
      put(name, content);
      received += received.empty() ? "" : ",";
      received += "{\"blobRef\":\"" + name + "\",\"size\":" + std::to_string(content.size()) + "}";
    }
    take(left);
    reply("application/json", "{\"received\":[" + received + "]}");
  }

 public:
  void load(string_view pack) {
    while (!pack.empty()) {
      string_view bracket = split_off(pack, "[", "a record"), name = split_off(pack, " ", "a record");
      size_t size = number(split_off(pack, "]", "a record"));
      expect(bracket.empty() && size <= pack.size(), "a record");
      put(name, pack.substr(0, size));
      pack.remove_prefix(size);
    }
  }

  void serve(Source &source) {
    while (!source.is_at_end()) {
      Head head = head_of(source.take(source.find("\r\n\r\n") + 4));
      if (head.method == "GET" && head.target.substr(0, 7) == "/camli/") {
        get(head);
      } else {
        expect(head.method == "POST" && head.target == "/camli/upload", "a request that is known");
        string boundary(parameter(head.content_type, "multipart/form-data", "boundary"));
        upload(source, head.length, boundary);
      }
    }
  }

  void write_replies() const {
    for (const string &text : replies) fwrite(text.data(), 1, text.size(), stdout);
    expect(fflush(stdout) == 0 && !ferror(stdout), "an output that can be written");
  }
};

int main(int count, char **words) {
  if (count != 5 || strcmp(words[1], "http") != 0) return 2;
  Server server;
  server.load(read_all(fopen(words[2], "rb")));
  Source source(read_all(stdin), number(words[4]));
  server.serve(source);
  server.write_replies();
}
