// What a side in C++ does with a file of cases, as src/workload.rs writes it and src/side.rs runs it: words of 64 bits, of the numbers and
// kinds that are named there. It prints the same lines.
//
// A Peer is a map. Peer::Thread is made by each thread before the clock starts. A Peer has find, insert, erase and replace, which return
// whether they did it and give the pointer that was there, and scan; where CAN_ERASE or CAN_SCAN is false it can't, and such a phase is
// left out.
#pragma once
#include <algorithm>
#include <atomic>
#include <chrono>
#include <cstdint>
#include <cstdio>
#include <cstdlib>
#include <memory>
#include <thread>
#include <vector>

typedef uint64_t u64;
enum Kind { FIND, INSERT, DELETE, REPLACE, SCAN, LOOK };
enum Mode { OWN, ANY, MANY, SCANS };
const u64 ABSENT = 1, INSERTED = 2, SAME = ~u64(0);

struct Step { u64 kind, key, pointer; };
struct Phase { u64 mode; std::vector<std::vector<Step>> threads; };
struct Reader {
  FILE* file;
  u64 word() {
    u64 word;
    if (fread(&word, 8, 1, file) != 1) { fprintf(stderr, "the file of cases is cut short\n"); exit(2); }
    return word;
  }
  template <class T> std::vector<T> list(u64 count) {
    std::vector<T> items(count);
    if (count && fread(items.data(), sizeof(T), count, file) != count) { fprintf(stderr, "the file of cases is cut short\n"); exit(2); }
    return items;
  }
  Phase phase() {
    Phase phase{word(), {}};
    for (u64 threads = word(); threads > 0; threads--) phase.threads.push_back(list<Step>(word()));
    return phase;
  }
};

inline u64 now() {
  return std::chrono::duration_cast<std::chrono::nanoseconds>(std::chrono::steady_clock::now().time_since_epoch()).count();
}

template <class Peer> u64 one(Peer& peer, const Step& step) {
  u64 pointer = 0;
  switch (step.kind) {
    case FIND: return peer.find(step.key, pointer) ? pointer : ABSENT;
    case INSERT: return peer.insert(step.key, step.pointer) ? INSERTED : ABSENT;
    case DELETE: return peer.erase(step.key, pointer) ? pointer : ABSENT;
    case REPLACE: return peer.replace(step.key, step.pointer, pointer) ? pointer : ABSENT;
    case LOOK: {
      // What it finds is nobody's to know, since others insert meanwhile.
      volatile u64 found = peer.scan(step.key, step.pointer);
      (void)found;
      return 0;
    }
    default: return peer.scan(step.key, step.pointer);
  }
}

template <class Peer> u64 answer(Peer& peer, const std::vector<Step>& steps) {
  u64 sum = 0;
  for (const Step& step : steps) sum += one(peer, step);
  return sum;
}

// Whether a phase has a step of this kind.
inline bool has(const Phase& phase, u64 kind) {
  for (auto& steps : phase.threads)
    for (auto& step : steps)
      if (step.kind == kind) return true;
  return false;
}

// Nanoseconds from the first start to the last end, and the sum of the answers.
template <class Peer> std::pair<u64, u64> timed(Peer& peer, const Phase& phase) {
  size_t count = phase.threads.size();
  if (count == 1) {
    u64 start = now(), sum = answer(peer, phase.threads[0]);
    return {now() - start, sum};
  }
  std::vector<u64> start(count), end(count), sum(count);
  std::atomic<size_t> ready{0};
  std::vector<std::thread> threads;
  for (size_t t = 0; t < count; t++)
    threads.emplace_back([&, t] {
      typename Peer::Thread enter;
      ready++;
      while (ready < count) std::this_thread::yield();
      start[t] = now();
      u64 own = answer(peer, phase.threads[t]);
      end[t] = now();
      sum[t] = own;
    });
  for (auto& thread : threads) thread.join();
  u64 all = 0;
  for (u64 one : sum) all += one;
  return {*std::max_element(end.begin(), end.end()) - *std::min_element(start.begin(), start.end()), all};
}

template <class Peer> int drive(const char* path) {
  typename Peer::Thread enter;
  Reader reader{fopen(path, "rb")};
  if (!reader.file) { perror(path); return 2; }
  std::vector<u64> entries, keys;
  u64 cases = reader.word();
  for (u64 number = 0; number < cases; number++) {
    u64 size = reader.word();
    if (size != SAME) {
      entries = reader.list<u64>(2 * size);
      keys = reader.list<u64>(reader.word());
    }
    std::vector<Phase> phases;
    for (u64 left = reader.word(); left > 0; left--) phases.push_back(reader.phase());
    u64 begin = now();
    auto peer = std::make_unique<Peer>();
    for (size_t i = 0; i < entries.size(); i += 2) peer->insert(entries[i], entries[i + 1]);
    u64 begun = now() - begin;
    // Where a change is left out, the contents are others.
    bool whole = true;
    for (size_t i = 0; i < phases.size(); i++) {
      bool erases = has(phases[i], DELETE), inserts = has(phases[i], INSERT);
      if ((erases && !Peer::CAN_ERASE) || phases[i].mode == MANY || ((has(phases[i], SCAN) || has(phases[i], LOOK)) && !Peer::CAN_SCAN)) {
        printf("left %llu %zu\n", (unsigned long long)number, i);
        whole &= !erases && !inserts;
        continue;
      }
      auto told = timed(*peer, phases[i]);
      printf("phase %llu %zu %llu %llu\n", (unsigned long long)number, i, (unsigned long long)told.first, (unsigned long long)told.second);
    }
    u64 contents = 0;
    for (u64 key : keys) {
      u64 pointer;
      contents = contents * 31 + (peer->find(key, pointer) ? pointer : ABSENT);
    }
    if (whole) printf("contents %llu %llu\n", (unsigned long long)number, (unsigned long long)contents);
    printf("beside %llu begin %llu\n", (unsigned long long)number, (unsigned long long)begun);
  }
  fclose(reader.file);
  return 0;
}
