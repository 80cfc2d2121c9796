// Two threads in the Flight Data Recorder mode, with typed and custom events of several sizes. The runtime of LLVM 14 names 16 bytes
// too few of a block for each typed event, so the last calls of each thread are lost. They are calls of `last`, so that no record is
// cut in the middle.
#include <pthread.h>
#include "xray/xray_interface.h"
#include "xray/xray_log_interface.h"

#define TRACED [[clang::xray_always_instrument]] __attribute__((noinline))

static const char text[] = "the bytes of an event, which may be any number of them";

TRACED int typed(int n) {
  __xray_typedevent(n, text, n);
  return n + 1;
}

TRACED int both(int n) {
  __xray_customevent(text, n);
  return typed(n);
}

TRACED int last(int n) { return n + 1; }

static void *work(void *) {
  long sum = 0;
  for (int i = 1; i < 50; i++)
    sum += both(i);
  for (int i = 0; i < 60; i++)
    sum += last(i);
  return (void *)sum;
}

[[clang::xray_never_instrument]] int main() {
  __xray_log_select_mode("xray-fdr");
  __xray_log_init_mode("xray-fdr", "buffer_size=16384:buffer_max=100:grace_period_ms=0:func_duration_threshold_us=0");
  __xray_patch();
  pthread_t thread;
  pthread_create(&thread, 0, work, 0);
  work(0);
  pthread_join(thread, 0);
  __xray_unpatch();
  __xray_log_finalize();
  __xray_log_flushLog();
}
