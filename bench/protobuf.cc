// Bodies with 600 bytes of data against Google's protobuf: an Import written, an Export's output read. The client's functions do
// whole requests and responses, the header and all that is refused included, where Google's library does the body alone; so the
// reader of bodies is timed by itself too, as crates/probe exports it.
#include <algorithm>
#include <chrono>
#include <cstdint>
#include <cstdio>
#include <cstdlib>
#include <string>
#include <vector>

#include "razidkot.pb.h"
#include "razidkot_client.h"

// Of crates/probe.
extern "C" void probe_read_body(const uint8_t *body, size_t body_length, uint8_t schema, uint64_t out[16]);

namespace {

constexpr int kTurns = 20;
constexpr int kEachTurn = 50'000;
constexpr size_t kRequestHeader = 28, kResponseHeader = 26, kRequestBuffer = 5'120, kState = 1'036;
// Where in a state the response begins.
constexpr size_t kHeld = 12;
constexpr uint16_t kExport = 7;
// Of crates/probe: one field, of bytes.
constexpr uint8_t kOneField = 3;
constexpr uint64_t kSession = 0x0102'0304'0506'0708;

void Require(bool holds, const char *what) {
  if (!holds) {
    std::printf("protobuf: %s\n", what);
    std::exit(1);
  }
}

// What it points to counts as read and written, so that no work on it can be left out.
void Use(void *memory) { asm volatile("" : : "r"(memory) : "memory"); }

const uint8_t *Bytes(const std::string &text) { return reinterpret_cast<const uint8_t *>(text.data()); }

std::string Data(size_t length) {
  std::string data(length, '\0');
  uint32_t word = 1;
  for (char &byte : data) byte = static_cast<char>((word = word * 1'664'525 + 1'013'904'223) >> 24);
  return data;
}

// ---- an Import written

struct Import {
  std::string name = std::string(32, 'k'), data = Data(600);
  uint32_t bits = 2'048;
  std::vector<uint8_t> out = std::vector<uint8_t>(kRequestBuffer);
  razidkot::PsaImportKeyRequest message;

  size_t ByClient() {
    Use(this);
    auto request = razidkot_client_write_import(out.data(), out.size(), kSession, false, nullptr, 0, Bytes(name), name.size(),
                                                Bytes(data), data.size(), bits, true, true);
    Use(out.data());
    return request.code == 0 ? request.written - kRequestHeader : 0;
  }

  // The message is kept, so that its strings need no new memory.
  void Fill() {
    Use(this);
    message.set_name(name);
    message.set_data(data);
    message.set_bits(bits);
    message.set_export_allowed(true);
    message.set_verify_allowed(true);
  }

  size_t ByGoogle() {
    Use(this);
    bool written = message.SerializeToArray(out.data(), static_cast<int>(out.size()));
    Use(out.data());
    return written ? message.GetCachedSize() : 0;
  }
};

// ---- an Export's output read

struct Export {
  std::string response;
  std::vector<uint8_t> state = std::vector<uint8_t>(kState);
  razidkot::PsaExportPublicKeyResponse message;

  explicit Export(const std::string &data) {
    message.set_data(data);
    std::string body = message.SerializeAsString();
    message.Clear();
    const uint8_t start[] = {0x10, 0xA7, 0xC0, 0x5E, 20, 0, 1, 0, 1};
    response.assign(start, start + sizeof start);
    for (int k = 0; k < 8; k++) response += static_cast<char>(kSession >> 8 * k);
    response += '\1';
    for (int k = 0; k < 4; k++) response += static_cast<char>(body.size() >> 8 * k);
    response += std::string({kExport, 0, 0, 0}) + body;
  }

  size_t ByClient() {
    Use(this);
    if (razidkot_client_begin(state.data(), state.size(), kExport, kSession) != 0) return 0;
    auto answer = razidkot_client_read(state.data(), state.size(), Bytes(response), response.size());
    Use(state.data() + answer.output.start);
    return answer.code == 1 ? answer.output.length : 0;
  }

  // Whether it could be read, then the first field's start and length.
  size_t ByProbe() {
    Use(this);
    uint64_t values[16];
    probe_read_body(Bytes(response) + kResponseHeader, response.size() - kResponseHeader, kOneField, values);
    Use(values);
    return values[0] == 1 ? values[2] : 0;
  }

  size_t ByGoogle() {
    Use(this);
    bool read = message.ParseFromArray(response.data() + kResponseHeader, static_cast<int>(response.size() - kResponseHeader));
    Use(const_cast<char *>(message.data().data()));
    return read ? message.data().size() : 0;
  }
};

// ---- both by turns

template <typename Work>
double Turn(Work work, size_t each) {
  auto start = std::chrono::steady_clock::now();
  size_t sum = 0;
  for (int k = 0; k < kEachTurn; k++) sum += work();
  std::chrono::duration<double, std::nano> time = std::chrono::steady_clock::now() - start;
  Require(sum == each * kEachTurn, "an operation failed");
  return time.count() / kEachTurn;
}

// In each turn the other comes first.
template <typename Client, typename Google>
void Row(const char *name, Client client, Google google, size_t each) {
  std::vector<double> times[2];
  for (int turn = 0; turn < kTurns; turn++) {
    for (int place = 0; place < 2; place++) {
      int program = (turn + place) % 2;
      times[program].push_back(program == 0 ? Turn(client, each) : Turn(google, each));
    }
  }
  for (auto &side : times) std::sort(side.begin(), side.end());
  double ours = times[0][kTurns / 2], theirs = times[1][kTurns / 2];
  std::printf("%-34s  client %4.0f  Google %4.0f (%.2f)\n", name, ours, theirs, ours / theirs);
}

void Written() {
  Import import;
  size_t length = import.ByClient();
  std::string body(import.out.begin() + kRequestHeader, import.out.begin() + kRequestHeader + length);
  import.Fill();
  Require(length > 600 && import.message.SerializeAsString() == body, "the same body is written");
  auto client = [&] { return import.ByClient(); };
  auto filled = [&] { import.Fill(); return import.ByGoogle(); };
  Row("Import written, message filled", client, filled, length);
  Row("Import written, message at hand", client, [&] { return import.ByGoogle(); }, length);
}

void Read() {
  std::string data = Data(600);
  Export response(data);
  Require(response.ByGoogle() == 600 && response.message.data() == data, "Google's library reads the data");
  Require(response.ByClient() == 600 && response.ByProbe() == 600, "the client reads the data");
  size_t end = kHeld + response.response.size();
  std::string held(response.state.begin() + end - 600, response.state.begin() + end);
  Require(held == data, "both read the same data");
  auto google = [&] { return response.ByGoogle(); };
  Row("Export read, whole response", [&] { return response.ByClient(); }, google, 600);
  Row("Export read, body alone", [&] { return response.ByProbe(); }, google, 600);
}

}  // namespace

int main() {
  std::printf("nanoseconds each, of the median of %d turns of %d; in brackets client / Google\n", kTurns, kEachTurn);
  Written();
  Read();
}
