/* Linked into the static netgame alone: it looks names up in /etc/hosts and by DNS, whatever else the system
 * asks for. Other ways are shared libraries; a static program that loads one of another C library is
 * aborted. */
#include <nss.h>

__attribute__((constructor)) static void look_up_by_files_and_dns(void) {
    __nss_configure_lookup("hosts", "files dns");
}
