// oneTBB's concurrent_map, a skip list. Its threads can't erase, so it has no mix with deletions. A pointer is an atomic, so that it can be
// replaced.
#include "work.h"
#include <oneapi/tbb/concurrent_map.h>

struct Peer {
  typedef std::atomic<u64> Pointer;
  static const bool CAN_ERASE = false, CAN_SCAN = true;
  struct Thread { Thread() {} };
  tbb::concurrent_map<u64, Pointer> map;
  bool find(u64 key, u64& pointer) {
    auto at = map.find(key);
    if (at == map.end()) return false;
    pointer = at->second.load(std::memory_order_acquire);
    return true;
  }
  bool insert(u64 key, u64 pointer) { return map.emplace(key, pointer).second; }
  bool erase(u64, u64&) { return false; }
  bool replace(u64 key, u64 pointer, u64& before) {
    auto at = map.find(key);
    if (at == map.end()) return false;
    before = at->second.exchange(pointer);
    return true;
  }
  u64 scan(u64 from, u64 count) {
    u64 sum = 0;
    for (auto at = map.lower_bound(from); at != map.end() && count > 0; ++at, count--) sum += at->first ^ at->second.load(std::memory_order_acquire);
    return sum;
  }
};

int main(int, char** words) { return drive<Peer>(words[1]); }
