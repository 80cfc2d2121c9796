// Three threads in the Flight Data Recorder mode, with arguments, custom events, tail calls and recursion. They are patched and
// unpatched while they run.
#include <pthread.h>
#include "xray/xray_interface.h"
#include "xray/xray_log_interface.h"

#define TRACED [[clang::xray_always_instrument]] __attribute__((noinline))

[[clang::xray_always_instrument, clang::xray_log_args(1)]] __attribute__((noinline)) int leaf(int n) {
  volatile int kept = n;
  return kept + 1;
}

TRACED int logs(int n) {
  static const char text[] = "hello, custom";
  __xray_customevent(text, 13);
  return leaf(n + 1);
}

TRACED int fib(int n) { return n < 2 ? leaf(n) : fib(n - 1) + fib(n - 2); }

TRACED int tail(int n) { return leaf(n * 2); }

static void *work(void *) {
  long sum = 0;
  for (int i = 0; i < 20; i++)
    sum += fib(7) + logs(i) + tail(i);
  return (void *)sum;
}

[[clang::xray_never_instrument]] int main() {
  __xray_log_select_mode("xray-fdr");
  __xray_log_init_mode("xray-fdr", "buffer_size=16384:buffer_max=100:grace_period_ms=0:func_duration_threshold_us=0");
  __xray_patch();
  pthread_t threads[2];
  for (pthread_t &thread : threads)
    pthread_create(&thread, 0, work, 0);
  for (int i = 0; i < 50; i++) {
    __xray_unpatch();
    __xray_patch();
  }
  work(0);
  for (pthread_t thread : threads)
    pthread_join(thread, 0);
  __xray_unpatch();
  __xray_log_finalize();
  __xray_log_flushLog();
}
