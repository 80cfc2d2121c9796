// Three threads in the basic mode, with arguments and C++ names.
#include <map>
#include <pthread.h>
#include <string>

namespace shop {
template <typename Key> struct Stock {
  std::map<Key, int> items;
  [[clang::xray_always_instrument]] __attribute__((noinline)) int add(const Key &key, int count) { return items[key] += count; }
};
} // namespace shop

[[clang::xray_always_instrument, clang::xray_log_args(1)]] __attribute__((noinline)) int sell(int count) {
  shop::Stock<std::string> stock;
  return stock.add("tea", count) + stock.add("milk", -count);
}

static void *work(void *) {
  long sum = 0;
  for (int i = 0; i < 10; i++)
    sum += sell(i);
  return (void *)sum;
}

[[clang::xray_never_instrument]] int main() {
  pthread_t threads[2];
  for (pthread_t &thread : threads)
    pthread_create(&thread, 0, work, 0);
  work(0);
  for (pthread_t thread : threads)
    pthread_join(thread, 0);
}
