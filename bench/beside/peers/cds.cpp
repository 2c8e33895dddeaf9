// libcds' SkipListMap with hazard pointers. A pointer is an atomic, so that it can be replaced while others look it up.
#include "work.h"
#include <cds/container/skip_list_map_hp.h>
#include <cds/gc/hp.h>
#include <cds/init.h>
#include <functional>

struct Pointer {
  std::atomic<u64> word;
  Pointer(u64 word = 0) : word(word) {}
  Pointer(const Pointer& other) : word(other.word.load()) {}
};

struct Peer {
  typedef cds::container::skip_list::make_traits<cds::opt::less<std::less<u64>>>::type Traits;
  typedef cds::container::SkipListMap<cds::gc::HP, u64, Pointer, Traits> Map;
  static const bool CAN_ERASE = true, CAN_SCAN = false;
  struct Thread {
    bool mine = !cds::threading::Manager::isThreadAttached();
    Thread() { if (mine) cds::threading::Manager::attachThread(); }
    ~Thread() { if (mine) cds::threading::Manager::detachThread(); }
  };
  Map map;
  bool find(u64 key, u64& pointer) {
    return map.find(key, [&](Map::value_type& entry) { pointer = entry.second.word.load(std::memory_order_acquire); });
  }
  bool insert(u64 key, u64 pointer) { return map.emplace(key, pointer); }
  bool erase(u64 key, u64& pointer) {
    return map.erase(key, [&](Map::value_type& entry) { pointer = entry.second.word.load(std::memory_order_acquire); });
  }
  bool replace(u64 key, u64 pointer, u64& before) {
    return map.find(key, [&](Map::value_type& entry) { before = entry.second.word.exchange(pointer); });
  }
  u64 scan(u64, u64) { return 0; }
};

int main(int, char** words) {
  int status;
  cds::Initialize();
  {
    cds::gc::HP collector(Peer::Map::c_nHazardPtrCount + 4, 16);
    status = drive<Peer>(words[1]);
  }
  cds::Terminate();
  return status;
}
