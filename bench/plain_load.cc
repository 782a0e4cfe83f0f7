// Makes a generated store (docs/formats/generated.md) and tells of it what `perkeep load` does, in the plainest way that
// isn't slow: hash tables, OpenSSL, and a reader that only knows the blobs made here.
//
//     plain_load COUNT START
//
// Each index takes blobs in any order and checks each signature once. Values and deletions are found at the end alone,
// where load's index keeps them right at each insert.
#include <openssl/evp.h>
#include <openssl/hmac.h>

#include <algorithm>
#include <cstdint>
#include <cstdio>
#include <cstdlib>
#include <ctime>
#include <map>
#include <set>
#include <string>
#include <unordered_map>
#include <vector>

using std::string;
using std::vector;

static const string SECRET = "load";

static string hex(const unsigned char *bytes, size_t length) {
  static const char *digits = "0123456789abcdef";
  string text;
  for (size_t i = 0; i < length; i++) {
    text += digits[bytes[i] >> 4];
    text += digits[bytes[i] & 15];
  }
  return text;
}

static string ref_of(const string &bytes) {
  unsigned char digest[28];
  EVP_Digest(bytes.data(), bytes.size(), digest, nullptr, EVP_sha224(), nullptr);
  return "sha224-" + hex(digest, sizeof digest);
}

static string signature_of(const string &payload) {
  unsigned char mac[32];
  HMAC(EVP_sha256(), SECRET.data(), (int)SECRET.size(), (const unsigned char *)payload.data(), payload.size(), mac, nullptr);
  return hex(mac, sizeof mac);
}

static uint64_t word(uint64_t start, uint64_t number) {
  uint64_t z = start + (number + 1) * 0x9E3779B97F4A7C15;
  z = (z ^ (z >> 30)) * 0xBF58476D1CE4E5B9;
  z = (z ^ (z >> 27)) * 0x94D049BB133111EB;
  return z ^ (z >> 31);
}

// The blobs

static const string MARKER = ",\"camliSig\":\"";

static string signed_blob(const string &payload) { return payload + MARKER + signature_of(payload) + "\"}\n"; }

static string head(const string &type, const string &signer) {
  return "{\"camliVersion\":1,\"camliType\":\"" + type + "\",\"camliSigner\":\"" + signer + "\"";
}

static string claim_head(const string &signer, uint64_t number, const string &type) {
  char date[32];
  time_t seconds = 1577836800 + (time_t)number;
  struct tm parts;
  gmtime_r(&seconds, &parts);
  strftime(date, sizeof date, "%Y-%m-%dT%H:%M:%SZ", &parts);
  return head("claim", signer) + ",\"claimDate\":\"" + date + "\",\"claimType\":\"" + type + "\"";
}

static string change(const string &signer, uint64_t number, const string &type, const string &target, const string &attribute,
                     const string &value) {
  return signed_blob(claim_head(signer, number, type) + ",\"permaNode\":\"" + target + "\",\"attribute\":\"" + attribute +
                     "\",\"value\":\"" + value + "\"");
}

static vector<string> load_blobs(uint64_t count, uint64_t start) {
  vector<string> blobs, refs;
  for (uint64_t i = 0; i < count; i++) {
    uint64_t w = word(start, i);
    string blob;
    if (i == 0) {
      blob = "perkeep-hmac-sha256 load\n";
    } else if (i % 4 == 1) {
      char random[33];
      snprintf(random, sizeof random, "%016llx%016llx", (unsigned long long)word(start, 2 * i),
               (unsigned long long)word(start, 2 * i + 1));
      blob = signed_blob(head("permanode", refs[0]) + ",\"random\":\"" + random + "\"");
    } else if (i % 4 == 2) {
      blob = change(refs[0], i, "set-attribute", refs[i - 1], "tag", "t" + std::to_string(w % 16));
    } else if (i % 4 == 3) {
      blob = change(refs[0], i, "add-attribute", refs[i - 2], "title", "n" + std::to_string(i));
    } else {
      uint64_t back = w % 2 == 0 || i == 4 ? 2 : 4;
      blob = signed_blob(claim_head(refs[0], i, "delete") + ",\"target\":\"" + refs[i - back] + "\"");
    }
    refs.push_back(ref_of(blob));
    blobs.push_back(blob);
  }
  return blobs;
}

// What a blob says

struct Fact {
  string type, signer, date, target, attribute, value, payload, signature;
  bool adds = false;
};

static string text_of(const string &payload, const string &key) {
  string before = "\"" + key + "\":\"";
  size_t at = payload.find(before);
  if (at == string::npos) return "";
  at += before.size();
  return payload.substr(at, payload.find('"', at) - at);
}

static Fact fact_of(const string &blob) {
  Fact fact;
  size_t marker = blob.rfind(MARKER);
  if (marker == string::npos) {
    fact.type = "key";
    return fact;
  }
  fact.payload = blob.substr(0, marker);
  fact.signature = blob.substr(marker + MARKER.size(), 64);
  fact.signer = text_of(fact.payload, "camliSigner");
  fact.type = text_of(fact.payload, "camliType");
  if (fact.type != "claim") return fact;
  fact.type = text_of(fact.payload, "claimType");
  fact.date = text_of(fact.payload, "claimDate");
  fact.target = text_of(fact.payload, fact.type == "delete" ? "target" : "permaNode");
  fact.attribute = text_of(fact.payload, "attribute");
  fact.value = text_of(fact.payload, "value");
  fact.adds = fact.type == "add-attribute";
  return fact;
}

// An index

struct Index {
  std::unordered_map<string, const Fact *> facts;
  std::unordered_map<string, bool> ready;
  std::unordered_multimap<string, string> waiting;
  std::set<string> permanodes;
  std::unordered_map<string, vector<string>> deleters, claims;

  const string *missing(const Fact &fact) const {
    for (const string *needed : {&fact.signer, &fact.target})
      if (!needed->empty() && !ready.count(*needed)) return needed;
    return nullptr;
  }

  void insert(const string &ref, const Fact &fact) {
    facts[ref] = &fact;
    vector<string> next{ref};
    while (!next.empty()) {
      string now = next.back();
      next.pop_back();
      const Fact &said = *facts[now];
      if (const string *needed = missing(said)) {
        waiting.emplace(*needed, now);
        continue;
      }
      ready[now] = true;
      take(now, said);
      auto [first, last] = waiting.equal_range(now);
      for (auto waiter = first; waiter != last; ++waiter) next.push_back(waiter->second);
      waiting.erase(first, last);
    }
  }

  void take(const string &ref, const Fact &fact) {
    if (fact.type == "key" || signature_of(fact.payload) != fact.signature) return;
    if (fact.type == "permanode") permanodes.insert(ref);
    else if (fact.type == "delete") deleters[fact.target].push_back(ref);
    else claims[fact.target].push_back(ref);
  }

  // No chain of deletions is long here.
  bool is_deleted(const string &ref) const {
    auto found = deleters.find(ref);
    if (found == deleters.end()) return false;
    return std::any_of(found->second.begin(), found->second.end(), [&](const string &by) { return !is_deleted(by); });
  }

  bool has(const string &permanode, const string &attribute, const string &value) const {
    auto found = claims.find(permanode);
    if (found == claims.end()) return false;
    std::map<std::pair<string, string>, const Fact *> sorted;
    for (const string &claim : found->second)
      if (!is_deleted(claim)) sorted[{facts.at(claim)->date, claim}] = facts.at(claim);
    vector<string> values;
    for (auto &[place, fact] : sorted) {
      if (fact->attribute != attribute) continue;
      if (!fact->adds) values.clear();
      values.push_back(fact->value);
    }
    return std::find(values.begin(), values.end(), value) != values.end();
  }

  void tell(const char *order, size_t count) const {
    size_t live = 0;
    string text;
    for (const string &permanode : permanodes) {
      if (is_deleted(permanode)) continue;
      live++;
      if (has(permanode, "tag", "t0")) text += string(text.empty() ? "" : ",") + "{\"blob\":\"" + permanode + "\"}";
    }
    printf("%s blobs %zu permanodes %zu answer %s\n", order, count, live, ref_of("{\"blobs\":[" + text + "]}").c_str());
  }
};

int main(int argc, char **argv) {
  if (argc != 3) return 2;
  vector<string> blobs = load_blobs(strtoull(argv[1], nullptr, 10), strtoull(argv[2], nullptr, 10)), refs;
  vector<Fact> facts;
  for (const string &blob : blobs) {
    refs.push_back(ref_of(blob));
    facts.push_back(fact_of(blob));
  }
  Index forward, backward;
  for (size_t i = 0; i < blobs.size(); i++) forward.insert(refs[i], facts[i]);
  forward.tell("forward", blobs.size());
  for (size_t i = blobs.size(); i-- > 0;) backward.insert(refs[i], facts[i]);
  backward.tell("backward", blobs.size());
}
