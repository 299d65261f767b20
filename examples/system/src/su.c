/* su: a shell of user 0, for whoever knows the password. */
#include "say.h"
#include "accounts.h"
#include "secret.h"
#include "ask.h"

static char typed[64];

int main(void)
{
	if (!find_account("root", 0))
		return complain("su", "no user root");
	if (*account.password && (getuid() & 0377) != 0)
		if (!ask_password(typed, sizeof typed) || strcmp(secret_of(typed), account.password) != 0) {
			say("Sorry\n");
			return 1;
		}
	setuid(0);
	setgid(account.group);
	execl("/bin/sh", "-", NULL);
	return complain("su", "no shell");
}
