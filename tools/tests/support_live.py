"""A case with a detour, of whose closure drivers hear."""
from support_assign import LINKS, SIGNALS


# Two vehicles in five seconds from o to d for ten minutes, all by `fast`, which takes 40 s and lets a vehicle out every
# two seconds; by m it takes 100 s, and of m there is no split row. In the second five minutes `fast` is shut.
# nobody hears of it: the 120 who set out then wait until it is open; the n-th of them sets out 2.5 n after minute 5 and
#                     arrives 2 n and 40 s after minute 10, so that together they take 120 x 340 - 120 x 120 / 4
# all:                they go by m
ROADS = {
    "setup": "step_ms,slots,origin_capacity,signals\n1000,1200,32,1\n",
    "links": LINKS + "fast,o,d,400,36,18,300\nslow,o,m,500,36,18,300\non,m,d,500,36,18,300\n",
    "demand": "origin,destination,from_slot,to_slot,vehicles\no,d,0,600,240\n",
    "splits": "node,destination,from_slot,weights\no,d,0,fast=1\n",
    "signals": SIGNALS + "fast,0,1200,0.5\n",
}
OPEN = 240 * 40
ALL = 120 * 40 + 120 * 100
