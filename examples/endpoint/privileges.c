// What the program may do once its ports are open.
#include "endpoint.h"

#include <grp.h>
#include <linux/capability.h>
#include <sys/prctl.h>
#include <sys/syscall.h>
#include <unistd.h>

// The user and the group that own nothing.
enum { NOBODY = 65534 };

static void drop_bounds(void) {
    for (unsigned long at = 0; prctl(PR_CAPBSET_READ, at, 0, 0, 0) >= 0; at++)
        if (at != CAP_NET_RAW && prctl(PR_CAPBSET_DROP, at, 0, 0, 0))
            fail_with_errno("capability %lu can't be dropped", at);
}

void drop_privileges(void) {
    struct __user_cap_header_struct header = {.version = _LINUX_CAPABILITY_VERSION_3};
    struct __user_cap_data_struct kept[_LINUX_CAPABILITY_U32S_3] = {{0}};
    kept[CAP_TO_INDEX(CAP_NET_RAW)].effective = kept[CAP_TO_INDEX(CAP_NET_RAW)].permitted = CAP_TO_MASK(CAP_NET_RAW);
    if (!geteuid()) {
        drop_bounds();
        if (prctl(PR_SET_KEEPCAPS, 1, 0, 0, 0) || setgroups(0, NULL) || setresgid(NOBODY, NOBODY, NOBODY) ||
            setresuid(NOBODY, NOBODY, NOBODY))
            fail_with_errno("root's rights can't be dropped");
    }
    // A service has ambient capabilities, which go with the permitted ones. After a crash there may be a core file, as before.
    if (syscall(SYS_capset, &header, kept) || prctl(PR_SET_NO_NEW_PRIVS, 1, 0, 0, 0) || prctl(PR_SET_DUMPABLE, 1, 0, 0, 0))
        fail_with_errno("capabilities can't be dropped");
}
