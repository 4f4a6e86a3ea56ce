"""A case with two roads to one destination, between which shares are sought."""

LINKS = "link,from,to,length_m,free_kmh,wave_kmh,jam_per_km\n"
SIGNALS = "link,from_slot,to_slot,vehicles\n"
# A vehicle a second from o to d. By `fast`, 40 s, half a vehicle a second gets through; `slow` takes 100 s. All go by
# `fast` until its queue costs 60 s, after a minute; then half of them keep it there.
TWO = {
    "setup": "step_ms,slots,origin_capacity,signals\n1000,400,32,1\n",
    "links": LINKS + "fast,o,d,400,36,18,300\nslow,o,d,1000,36,18,300\n",
    "demand": "origin,destination,from_slot,to_slot,vehicles\no,d,0,180,180\n",
    "splits": "node,destination,from_slot,weights\no,d,0,slow=1\n",
    "signals": SIGNALS + "fast,0,400,0.5\n",
}
