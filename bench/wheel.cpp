// A plain event-driven simulator with a timing wheel, to compare the engine's speed with. It reads a deck, feeds the same
// random steps as bench_engine, and prints the same counts. It checks nothing.
//
// usage: wheel STRETCHES < DECK
#include <cstdint>
#include <cstdio>
#include <cstdlib>
#include <iostream>
#include <string>
#include <vector>

namespace {

// As in bench_engine: so many steps make a stretch, and so many ticks lie between two steps.
constexpr unsigned STEPS = 6;
constexpr unsigned PERIOD = 200;

// Longer than any delay; a deck with a longer one is refused.
constexpr unsigned WHEEL = 64;

// Bits at random, always the same.
struct Random {
  std::uint64_t word = 0x9e3779b97f4a7c15;

  std::uint64_t next() {
    word ^= word << 13;
    word ^= word >> 7;
    word ^= word << 17;
    return word;
  }
};

enum class Kind { Buf, Not, And, Or, Xor, Nand, Nor, Xnor };

struct Gate {
  Kind kind;
  unsigned delay;
  std::vector<unsigned> reads;
};

// Lines are numbered from 0 here: first the inputs, then the gates.
struct Netlist {
  unsigned inputs = 0;
  std::vector<Gate> gates;
  std::vector<std::vector<unsigned>> readers;  // of each line, the gates that read it

  unsigned lines() const { return inputs + static_cast<unsigned>(gates.size()); }
};

Kind kind_of(const std::string& name) {
  static const char* const names[] = {"BUF ", "NOT ", "AND ", "OR  ", "XOR ", "NAND", "NOR ", "XNOR"};
  for (int kind = 0; kind < 8; ++kind) {
    if (name == names[kind]) return static_cast<Kind>(kind);
  }
  std::cerr << "wheel: unknown kind\n";
  std::exit(1);
}

unsigned number(const std::string& record, std::size_t column, std::size_t width) {
  return static_cast<unsigned>(std::stoul(record.substr(column - 1, width)));
}

Netlist read_deck(std::istream& in) {
  Netlist netlist;
  std::string record;
  while (std::getline(in, record) && record[0] != 'E') {
    if (record[0] == 'N') netlist.inputs = number(record, 2, 4);
    if (record[0] != 'G') continue;
    Gate gate{kind_of(record.substr(5, 4)), number(record, 10, 5), {}};
    if (gate.delay >= WHEEL) {
      std::cerr << "wheel: a delay too long\n";
      std::exit(1);
    }
    for (std::size_t column = 15; column <= record.size(); column += 4) gate.reads.push_back(number(record, column, 4) - 1);
    netlist.gates.push_back(gate);
  }
  netlist.readers.resize(netlist.lines());
  for (unsigned place = 0; place < netlist.gates.size(); ++place) {
    for (unsigned line : netlist.gates[place].reads) {
      std::vector<unsigned>& readers = netlist.readers[line];
      if (readers.empty() || readers.back() != place) readers.push_back(place);
    }
  }
  return netlist;
}

bool evaluate(const Gate& gate, const std::vector<char>& values) {
  bool fold = values[gate.reads[0]];
  for (std::size_t place = 1; place < gate.reads.size(); ++place) {
    const bool next = values[gate.reads[place]];
    switch (gate.kind) {
      case Kind::And: case Kind::Nand: fold = fold && next; break;
      case Kind::Or: case Kind::Nor: fold = fold || next; break;
      default: fold = fold != next;
    }
  }
  const bool inverts = gate.kind == Kind::Not || gate.kind == Kind::Nand || gate.kind == Kind::Nor || gate.kind == Kind::Xnor;
  return fold != inverts;
}

// Whether a walk leads from each gate's line back to itself.
std::vector<char> looped(const Netlist& netlist) {
  std::vector<char> found(netlist.gates.size(), 0);
  for (unsigned start = 0; start < netlist.gates.size(); ++start) {
    std::vector<char> seen(netlist.gates.size(), 0);
    std::vector<unsigned> open = netlist.readers[netlist.inputs + start];
    while (!open.empty()) {
      const unsigned place = open.back();
      open.pop_back();
      if (seen[place]) continue;
      seen[place] = 1;
      for (unsigned reader : netlist.readers[netlist.inputs + place]) open.push_back(reader);
    }
    found[start] = seen[start];
  }
  return found;
}

// What lines begin with: inputs and looped lines with 0, others with their gate's function.
std::vector<char> initial_values(const Netlist& netlist) {
  const std::vector<char> loops = looped(netlist);
  std::vector<char> values(netlist.lines(), 0);
  for (bool alters = true; alters;) {
    alters = false;
    for (unsigned place = 0; place < netlist.gates.size(); ++place) {
      if (loops[place]) continue;
      const char value = evaluate(netlist.gates[place], values);
      alters = alters || value != values[netlist.inputs + place];
      values[netlist.inputs + place] = value;
    }
  }
  return values;
}

struct Change {
  unsigned tick;
  bool value;
};

class Simulator {
 public:
  explicit Simulator(const Netlist& netlist)
      : netlist_(netlist), values_(initial_values(netlist)), last_(values_), changes_(netlist.lines()), wheel_(WHEEL),
        marked_(netlist.gates.size(), 0) {
    // At tick 0 all gates follow what they read.
    for (unsigned place = 0; place < netlist_.gates.size(); ++place) mark(place);
  }

  // An input gets a value now.
  void feed(unsigned input, bool value) { wheel_[now_ % WHEEL].push_back({input, value}); }

  // All ticks up to one, that one excluded.
  void go(unsigned to) {
    for (; now_ < to; ++now_) tick();
  }

  // Forgets the changes of a stretch, after counting and digesting them line by line.
  void collect() {
    for (unsigned line = 0; line < netlist_.lines(); ++line) {
      for (const Change& change : changes_[line]) {
        digest(line + 1);
        digest(change.tick);
        digest(change.value);
      }
      count_ += changes_[line].size();
      changes_[line].clear();
    }
  }

  std::uint64_t count() const { return count_; }
  std::uint64_t digested() const { return digested_; }

 private:
  struct Event {
    unsigned line;
    bool value;
  };

  void mark(unsigned place) {
    if (marked_[place]) return;
    marked_[place] = 1;
    waiting_.push_back(place);
  }

  void apply(const Event& event) {
    if (values_[event.line] == event.value) return;
    values_[event.line] = event.value;
    changes_[event.line].push_back({now_, event.value});
    for (unsigned reader : netlist_.readers[event.line]) mark(reader);
  }

  void tick() {
    std::vector<Event>& events = wheel_[now_ % WHEEL];
    for (const Event& event : events) apply(event);
    events.clear();
    for (unsigned place : waiting_) {
      marked_[place] = 0;
      const unsigned line = netlist_.inputs + place;
      const bool value = evaluate(netlist_.gates[place], values_);
      if (last_[line] == value) continue;
      last_[line] = value;
      wheel_[(now_ + netlist_.gates[place].delay) % WHEEL].push_back({line, value});
    }
    waiting_.clear();
  }

  void digest(std::uint64_t word) { digested_ = (digested_ ^ word) * 0x100000001b3; }

  const Netlist& netlist_;
  std::vector<char> values_;  // now
  std::vector<char> last_;    // the last that was put into the wheel, or the initial one
  std::vector<std::vector<Change>> changes_;
  std::vector<std::vector<Event>> wheel_;
  std::vector<char> marked_;
  std::vector<unsigned> waiting_;
  unsigned now_ = 0;
  std::uint64_t count_ = 0;
  std::uint64_t digested_ = 0xcbf29ce484222325;
};

}  // namespace

int main(int argc, char** argv) {
  const unsigned stretches = argc > 1 ? static_cast<unsigned>(std::stoul(argv[1])) : 3000;
  const Netlist netlist = read_deck(std::cin);
  Simulator simulator(netlist);
  Random random;
  unsigned steps = 0;
  for (unsigned stretch = 0; stretch < stretches; ++stretch) {
    for (unsigned step = 0; step < STEPS; ++step, ++steps) {
      for (unsigned input = 0; input < netlist.inputs; ++input) {
        const std::uint64_t word = random.next();
        if (word >> 32 & 1) simulator.feed(input, word >> 33 & 1);
      }
      simulator.go((steps + 1) * PERIOD);
    }
    simulator.collect();
  }
  std::printf("%u steps, %llu changes\n", steps, static_cast<unsigned long long>(simulator.count()));
  std::printf("digest %016llx\n", static_cast<unsigned long long>(simulator.digested()));
}
