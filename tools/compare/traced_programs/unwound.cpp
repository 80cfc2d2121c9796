// Calls that end by an exception: each leaves an entry without an exit.
#include "xray/xray_interface.h"
#include "xray/xray_log_interface.h"

__attribute__((noinline)) int throws(int n) {
  volatile int kept = n;
  if (kept >= 0)
    throw kept;
  return kept;
}

__attribute__((noinline)) int returns(int n) {
  volatile int kept = n;
  return kept;
}

[[clang::xray_never_instrument]] int main() {
  __xray_log_select_mode("xray-fdr");
  __xray_log_init_mode("xray-fdr", "buffer_size=1048576:buffer_max=10:grace_period_ms=0:func_duration_threshold_us=0");
  __xray_patch();
  int sum = 0;
  for (int i = 0; i < 5000; i++) {
    try {
      throws(i);
    } catch (int n) {
      sum += returns(n);
    }
  }
  __xray_unpatch();
  __xray_log_finalize();
  __xray_log_flushLog();
  return sum == 0;
}
