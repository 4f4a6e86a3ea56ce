"""A folder with small files of all kinds that the tools read, and each command over them: for tests that spoil a
file."""
import gzip
import shutil
from pathlib import Path
from typing import NamedTuple

from support_loadings import DATA
from support_sumo import EDGES, WAYS

TEXTS = {
    "case/nodes.csv": "name,x,y,crs\nn1,11.561,48.14,EPSG:4326\nn2,11.57,48.142,EPSG:4326\nn3,11.58,48.141,EPSG:4326\n"
    "n4,11.572,48.13,EPSG:4326\n",
    "case/shapes.csv": "link,points\na,11.561 48.14;11.566 48.143;11.57 48.142\n",
    "case/clock.txt": "7:00\n",
    "case/source_links.csv": "source,from,to,link\np,1,2,a\nq,2,3,a\nr,3,4,\ns,4,5,b\n",
    "case/source_nodes.csv": "source,node\n1,n1\n3,n2\n4,n2\n5,n3\n",
    "net/link.csv": "link_id,from_node_id,to_node_id,directed,length,facility_type,capacity,free_speed,lanes,geometry\n"
    '101,1,2,false,800,arterial,900,50,2,"LINESTRING (11.561 48.14, 11.566 48.143, 11.57 48.142)"\n'
    "102,2,3,false,700,arterial,800,40,1,\n103,1,4,true,1150,collector,700,50,1,\n"
    "104,4,3,false,9,collector,700,50,1,\n",
    "net/node.csv": "node_id,name,x_coord,y_coord,zone_id\n1,West,11.561,48.14,11\n2,Bridge,11.57,48.142,\n"
    "3,Market,11.58,48.141,12\n4,South,11.572,48.13,13\n",
    "net/demand.csv": "o_zone_id,d_zone_id,volume\n11,12,420\n11,13,360\n12,11,150\n",
    "net/config.csv": "long_length,speed\nm,km/h\n",
    "profile.csv": "from,to,share\n7:00,7:15,0.2\n7:15,7:30,0.8\n",
    "short.csv": "from,to,share\n7:00:00,7:00:05,0.2\n7:00:05,7:00:10,0.8\n",
    "table.csv": "origin,destination,vehicles\nn1,n3,1.5\nn1,n4,2\n",
    "matrix.csv": "zone,n3,n4\nn1,1.5,2\nn2,0.25,0\n",
    "trips.csv": "origin,destination,depart,vehicles\nn1,n3,7:00:01,1\nn2,n3,7:00:04,0.5\n",
    "counted.csv": "depart,vehicles,links\n7:00:01,2,a b\n7:00:03,1,p q s\n7:00:05,1,a c d\n",
    "turns.csv": "from_link,to_link,vehicles\na,b,10\na,c,3\n",
    "greens.csv": "link,cycle,green_from,green_to,offset,start,end\na,6,0,3,1,7:00,7:00:12\ns,4,1,3,0,,\n",
    "counts.csv": "link,from,to,vehicles,end,error,use,place\np,7:00:01,7:00:05,1.5,,,,\nb,1.5,6,0.9,exit,0.2,hold,\n"
    "c,7:00:02,7:00:08,0.5,12,,,\nb,7:00:04,7:00:10,1,,,,line\nc,7:00:04,7:00:10,1,,,,line\n",
    "measured.csv": "route,departs,seconds\np q s,7:00:01,6\na c d,2,9.5\n",
    "edges.xml": '<meandata><interval begin="25201" end="25206"><edge id="p" entered="2" departed="1"/><edge id=":x_0"'
    ' entered="9"/><edge id="s" left="1" arrived="0"/></interval></meandata>\n',
    "detected.csv": "Detector;Time;qPKW;qLKW\nd1;420;3;1\nd2;420;2;0\n",
    "detectors.csv": "detector,link,end\nd1,p,\nd2,p,\n",
    "script.jsonl": '{"do":"link","link":"a"}\n{"do":"edit","edits":[{"kind":"diagram","link":"b","length_m":20,'
    '"free_kmh":36,"wave_kmh":18,"jam_per_km":100}]}\n{"do":"settle"}\n'
    '{"do":"edit","edits":[{"kind":"exit","link":"a","from":2,"to":5,"vehicles":"0.1"}]}\n',
    "scenarios.jsonl": '{"name":"slow","edits":[{"kind":"limit","link":"b","from":0,"to":9,"vehicles":"0.2"}]}\n'
    '{"name":"more","batches":[[{"kind":"demand","origin":"n1","destination":"n3","from":0,"to":6,'
    '"vehicles":"5"}],[{"kind":"horizon","slots":14}]]}\n',
    "driven.xml": '<routes><vType id="car" vClass="passenger"/><vehicle id="v" depart="25201" type="car"><route'
    ' edges="p q r s"/></vehicle><trip id="w" depart="25202.5" from="p" to="s"/></routes>\n',
    "d3.min.js": "// https://d3js.org v7.8.5 Copyright\n!function(){}();\n",
    "links.tntp": "<NUMBER OF ZONES> 2\n<FIRST THRU NODE> 3\n<NUMBER OF LINKS> 4\n<END OF METADATA>\n\n"
    "~\tinit_node\tterm_node\tcapacity\tlength\tfree_flow_time\tb\tpower\tspeed\ttoll\tlink_type\t;\n"
    "\t1\t3\t1800\t0.5\t0.5\t0.15\t4\t0\t0\t1\t;\n\t3\t4\t1600\t1.5\t1.5\t0.15\t4\t0\t0\t1\t;\n"
    "\t4\t2\t1800\t0.5\t0.5\t0.15\t4\t0\t0\t1\t;\n\t4\t3\t900\t1.5\t2.5\t0.15\t4\t0\t0\t1\t;\n",
    "trips.tntp": "<NUMBER OF ZONES> 2\n<TOTAL OD FLOW> 300.0\n<END OF METADATA>\n\nOrigin \t1\n    2 :    300.0;\n",
    "nodes.tntp": "Node\tX\tY\t;\n1\t0\t0\t;\n2\t2500\t0\t;\n3\t500\t0\t;\n4\t2000\t0\t;\n",
    "town.net.xml": '<?xml version="1.0" encoding="UTF-8"?>\n<net version="1.9">\n<location netOffset="-690000.00,'
    '-5330000.00" projParameter="+proj=utm +zone=32 +ellps=WGS84 +datum=WGS84 +units=m +no_defs"/>\n'
    + EDGES
    + '\n<tlLogic id="t" type="static" programID="0" offset="3"><phase duration="20" state="Gr"'
    '/><phase duration="4" state="yr"/><phase duration="16" state="rG"/></tlLogic>\n'
    + "".join(
        f'<junction id="{name}" type="priority" x="{x}.0" y="{y}.5"/>'
        for name, x, y in (("A", 0, 0), ("B", 200, 0), ("C", 400, 10), ("D", 200, 200))
    )
    + WAYS.replace('to="on"', 'to="on" tl="t" linkIndex="0"').replace('to="left#1"', 'to="left#1" tl="t" linkIndex="1"')
    + "\n</net>\n",
    "cars.rou.xml": '<routes><vType id="car" vClass="passenger"/><route id="ahead" edges="in on"/>'
    '<vehicle id="v" depart="25200" type="car" route="ahead"/>'
    '<trip id="w" depart="25230.5" from="in" to="on"/>'
    '<flow id="f" begin="25200" end="25500" number="20" type="car"><route edges="in left#1"/></flow>'
    "</routes>\n",
    "plans.add.xml": '<additional><tlLogic id="t" type="static" programID="1" offset="0"><phase duration="30"'
    ' state="GG"/><phase duration="10" state="rr"/></tlLogic></additional>\n',
}
CASE = ("case/setup.csv", "case/links.csv", "case/demand.csv", "case/splits.csv", "case/signals.csv")
LOADED = (*CASE, "case/curves.csv")
SOURCE = ("case/source_links.csv", "case/source_nodes.csv")
PLACES = ("case/nodes.csv", "case/shapes.csv")
CURVES = "--curves case/curves.csv"
NET = ("net/link.csv", "net/node.csv", "net/demand.csv", "net/config.csv")
TNTP = ("links.tntp", "trips.tntp", "nodes.tntp")
SUMO = ("town.net.xml", "cars.rou.xml", "plans.add.xml")
MAY_MISS = (
    *("case/clock.txt", "case/splits.csv", "turning/splits.csv", *PLACES, *SOURCE),
    *("net/node.csv", "net/demand.csv", "net/config.csv"),
)


TURNS = (
    "approach,exit,link,vehicles,lanes,saturation,cycle,offset,greens,permitted,opposing,opposing_saturation,"
    "permissive,factors\na,b,b,0,1,1800,6,0,,0-4,a,1800,4.5 2.2 1,1\n"
)
# commands that take files of the clone, none of a user; `test_wrapper` and `test_packaging` spoil those of a clone
OF_A_CLONE = ("install", "package", "prove")


class Run(NamedTuple):
    """A command, the files that it reads, those that it writes, and the libraries beside Python's own and the program
    that it needs. `live` ends as soon as it would open a browser."""

    words: str
    reads: tuple[str, ...]
    writes: tuple[str, ...] = ()
    needs: tuple[str, ...] = ()


RUNS = (
    Run("inspect case", CASE),
    Run("inspect case --links", CASE[:2]),
    Run(f"queues case {CURVES} --format csv -o OUT", (*LOADED, "case/clock.txt"), ("OUT",)),
    Run(f"times case p q r s {CURVES}", (*LOADED, *SOURCE, "case/clock.txt")),
    Run(f"compare case other {CURVES} --other-curves other/curves.csv --format json", LOADED),
    Run(
        f"page case {CURVES} --d3 d3.min.js -o OUT",
        (*LOADED, *PLACES, *SOURCE, "case/clock.txt", "d3.min.js"),
        ("OUT",),
    ),
    Run(
        f"geojson case {CURVES} --at 7:00:05 -o OUT",
        (*LOADED, "case/nodes.csv", "case/shapes.csv", "case/clock.txt"),
        ("OUT",),
    ),
    Run(f"plot path case a b OUT.png {CURVES}", ("case/curves.csv",), ("OUT.png",), ("matplotlib",)),
    Run(f"draw map case -o OUT.png --at 7:00:05 {CURVES}", PLACES, ("OUT.png",), ("matplotlib",)),
    Run("from-gmns net made --fit 20s --profile profile.csv --rename", (*NET, "profile.csv"), ("made",)),
    Run("from-gmns net made --step 500 --horizon 60", NET, ("made",)),
    Run("from-tntp links.tntp trips.tntp nodes.tntp made --fit 5s --length-unit km", TNTP, ("made",)),
    Run("from-sumo town.net.xml cars.rou.xml plans.add.xml made --fit 5s", SUMO, ("made",)),
    Run("from-sumo town.net.xml.gz cars.rou.xml made --step 1000", ("town.net.xml.gz", "cars.rou.xml"), ("made",)),
    Run(
        "demand case --table table.csv --profile short.csv --start 7:00",
        ("case/setup.csv", "case/links.csv", "table.csv", "short.csv"),
        ("case/demand.csv", "case/clock.txt"),
    ),
    Run(
        "demand case --table matrix.csv --leave-out-unreached",
        ("case/setup.csv", "case/links.csv", "matrix.csv"),
        ("case/demand.csv", "case/clock.txt"),
    ),
    Run(
        "demand case --trips trips.csv --slice 1",
        ("case/setup.csv", "case/links.csv", "trips.csv", *SOURCE),
        ("case/demand.csv", "case/clock.txt"),
    ),
    Run(
        "splits case --routes counted.csv --demand",
        (*CASE[:3], "counted.csv", *SOURCE),
        ("case/demand.csv", "case/splits.csv", "case/clock.txt"),
    ),
    Run("splits case --turns turns.csv", (*CASE[:3], "turns.csv"), ("case/splits.csv",)),
    Run("signals case --cycles greens.csv", (*CASE[:4], "greens.csv", *SOURCE), tuple(name for name in CASE)),
    Run("apply case script.jsonl made", (*CASE, "script.jsonl"), ("made",), ("program",)),
    Run(
        "cut case --box 11.56 48.135 11.6 48.2 -o made",
        (*CASE, *SOURCE, *PLACES, "case/clock.txt"),
        ("made",),
        ("program",),
    ),
    Run("compare case --script script.jsonl -o OUT", (*CASE, "script.jsonl", "case/clock.txt"), ("OUT",), ("program",)),
    Run(
        "sweep case scenarios.jsonl --delay --links p s -o OUT --sessions 1",
        (*CASE, "scenarios.jsonl", *SOURCE),
        ("OUT",),
        ("program",),
    ),
    Run("assign case -o made --iterations 1 --period 0.1", CASE, ("made",), ("program", "numpy")),
    Run(
        "closures case --from 7:00:02 --to 7:00:05 --period 0.1 --iterations 1 --format csv -o OUT",
        (*CASE, "case/clock.txt"),
        ("OUT",),
        ("program", "numpy"),
    ),
    Run(f"drive case {CURVES} driven.xml -o OUT", (*LOADED, *SOURCE, "driven.xml", "case/clock.txt"), ("OUT",)),
    Run(
        "signals turning --optimise -o made --rounds 1 --sessions 1",
        (*(name.replace("case/", "turning/") for name in CASE), "turning/turns.csv"),
        ("made",),
        ("program",),
    ),
    Run(
        "bottlenecks case --links p s --format csv -o OUT --sessions 1",
        (*CASE, *SOURCE, "case/clock.txt"),
        ("OUT",),
        ("program",),
    ),
    Run(
        "turns turning counted.csv",
        (*(name.replace("case/", "turning/") for name in CASE), "turning/turns.csv", "counted.csv"),
        tuple(name.replace("case/", "turning/") for name in (*CASE, "case/turns.csv")),
    ),
    Run(
        "calibrate case --counts counts.csv -o made --slice 1 --iterations 1 --samples 0",
        (*CASE, "counts.csv"),
        ("made",),
        ("program", "numpy"),
    ),
    Run("live case --d3 d3.min.js", (*CASE, *PLACES, "d3.min.js"), (), ("program", "tornado")),
    Run(
        f"flows case {CURVES} --every 0.05 --format csv -o OUT",
        (*LOADED, *SOURCE, "case/clock.txt"),
        ("OUT",),
    ),
    Run(
        f"flows case {CURVES} --every 0.05 --links p s --format geojson -o OUT",
        (*LOADED, *SOURCE, *PLACES, "case/clock.txt"),
        ("OUT",),
    ),
    Run(f"flows case {CURVES} --service --every 0.1 --format json", (*LOADED, *SOURCE, "case/clock.txt")),
    Run(
        f"validate case {CURVES} --counts counts.csv --times measured.csv -o OUT",
        (*LOADED, *SOURCE, "case/clock.txt", "counts.csv", "measured.csv"),
        ("OUT",),
    ),
    Run(
        f"validate case {CURVES} --counts edges.xml detected.csv --detectors detectors.csv --span 7:00 7:00:10",
        (*LOADED, *SOURCE, "case/clock.txt", "edges.xml", "detected.csv", "detectors.csv"),
    ),
    Run('explain case 6 "bad case links row 2 StepTooLong 1440 7200"', CASE),
)


def set_up(folder: Path) -> None:
    """Writes all files into an empty folder."""
    for name in ("case", "other"):
        shutil.copytree(DATA / "base_signals", folder / name)
        (folder / name / "delay.out").unlink()
    for name, text in TEXTS.items():
        (folder / name).parent.mkdir(exist_ok=True)
        (folder / name).write_text(text, encoding="utf-8")
    shutil.copytree(folder / "case", folder / "turning", ignore=shutil.ignore_patterns("curves.csv"))
    (folder / "turning" / "turns.csv").write_text(TURNS, encoding="utf-8")
    (folder / "town.net.xml.gz").write_bytes(gzip.compress(TEXTS["town.net.xml"].encode(), mtime=0))
