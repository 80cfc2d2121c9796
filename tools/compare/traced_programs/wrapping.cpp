// Four threads in few buffers, which wrap: in the log, the blocks of a thread stand out of the order of time.
#include <pthread.h>
#include "xray/xray_interface.h"
#include "xray/xray_log_interface.h"

__attribute__((noinline)) int leaf(int n) {
  volatile int kept = n;
  return kept + 1;
}

__attribute__((noinline)) int fib(int n) { return n < 2 ? leaf(n) : fib(n - 1) + fib(n - 2); }

static void *work(void *) {
  long sum = 0;
  for (int i = 0; i < 20; i++)
    sum += fib(15);
  return (void *)sum;
}

[[clang::xray_never_instrument]] int main() {
  __xray_log_select_mode("xray-fdr");
  __xray_log_init_mode("xray-fdr", "buffer_size=16384:buffer_max=100:grace_period_ms=0:func_duration_threshold_us=0");
  __xray_patch();
  pthread_t threads[3];
  for (pthread_t &thread : threads)
    pthread_create(&thread, 0, work, 0);
  for (pthread_t thread : threads)
    pthread_join(thread, 0);
  work(0);
  __xray_unpatch();
  __xray_log_finalize();
  __xray_log_flushLog();
}
