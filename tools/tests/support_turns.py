"""A crossing of SUMO with a signal, by hand, and routes over its turns."""
from support_sumo import edge, way


# c has arms n, s and w to come from, and n, s and e to go to; from n to e is a left turn, against those from s to n
ARMS = "".join(edge(name, name[0], name[1], metres="300.00") for name in ("nc", "sc", "wc", "cn", "cs", "ce"))
WAYS = (
    way("nc", "cs", 0, 'tl="c" linkIndex="0" via=":c_0_0"')
    + way("nc", "ce", 0, 'tl="c" linkIndex="1" via=":c_1_0"')
    + way("sc", "cn", 0, 'tl="c" linkIndex="2" via=":c_2_0"')
    + way("wc", "ce", 0, 'tl="c" linkIndex="3" via=":c_3_0"')
)
YIELDS = (
    '<junction id="c" type="traffic_light" x="0" y="0"><request index="0" response="0000"/>'
    '<request index="1" response="0100"/><request index="2" response="0000"/>'
    '<request index="3" response="0000"/></junction>'
)
# of 60 s the left turn has 20 in which it yields, then 10 of its own
PROGRAM = (
    '<tlLogic id="c" type="static" programID="0" offset="0"><phase duration="20" state="GgGr"/>'
    '<phase duration="5" state="yryr"/><phase duration="10" state="rGrr"/>'
    '<phase duration="25" state="rrrG"/></tlLogic>'
)
NET = ARMS + WAYS + YIELDS + PROGRAM
# those from s set out every 10 s and are at the crossing 30 s later: 57 in the first 10 minutes, then 60, and 3
ROUTES = (
    '<flow id="s" begin="0" end="1200" number="120" from="sc" to="cn"/>'
    '<vehicle id="l" depart="0"><route edges="nc ce"/></vehicle>'
    '<vehicle id="t" depart="0"><route edges="nc cs"/></vehicle>'
    '<vehicle id="w" depart="0"><route edges="wc ce"/></vehicle>'
)
WORDS = ("--turns", "signals", "--step", "5000", "--horizon", "30", "--saturation", "road")
