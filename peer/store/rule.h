/* Which of the units that fit takes a new sector. */
#ifndef PEER_RULE_H
#define PEER_RULE_H

/* The fitting unit with the smallest gap, the lowest number on a tie; or the lowest one that fits, which is the old rule. */
enum rule { TIGHTEST = 0, LOWEST = 1 };

#endif
