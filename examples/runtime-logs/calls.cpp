// Three threads that call functions with sleds. `leaf` logs its argument, and `events` makes a custom and a typed event.
#include <pthread.h>

#include "xray/xray_interface.h"
#include "xray/xray_log_interface.h"

[[clang::xray_always_instrument, clang::xray_log_args(1)]] __attribute__((noinline)) int leaf(int number) {
  volatile int kept = number;
  return kept + 1;
}

[[clang::xray_always_instrument]] __attribute__((noinline)) int events(int number) {
  static const char text[] = "hello, custom";
  __xray_customevent(text, 13);
#ifndef WITHOUT_TYPED_EVENTS
  __xray_typedevent(7, text, 5);
#endif
  return leaf(number + 1);
}

[[clang::xray_always_instrument]] __attribute__((noinline)) int fib(int number) {
  return number < 2 ? leaf(number) : fib(number - 1) + fib(number - 2);
}

[[clang::xray_always_instrument]] __attribute__((noinline)) int tail(int number) { return leaf(number * 2); }

void *work(void *) {
  long sum = 0;
  for (int round = 0; round < 3; ++round) {
    sum += fib(5) + events(round) + tail(round);
  }
  return reinterpret_cast<void *>(sum);
}

[[clang::xray_never_instrument]] int main() {
  __xray_log_select_mode("xray-fdr");
  __xray_log_init_mode("xray-fdr", "buffer_size=16384:buffer_max=100:grace_period_ms=0:func_duration_threshold_us=0");
  __xray_patch();
  pthread_t threads[2];
  for (pthread_t &thread : threads) {
    pthread_create(&thread, nullptr, work, nullptr);
  }
  for (pthread_t thread : threads) {
    pthread_join(thread, nullptr);
  }
  work(nullptr);
  __xray_unpatch();
  __xray_log_finalize();
  __xray_log_flushLog();
}
