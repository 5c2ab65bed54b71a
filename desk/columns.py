"""The columns of a job file: their names, what they mean, and what the program accepts, in the words of README.md, "What goes in"."""
from collections import namedtuple

Column = namedtuple("Column", "name meaning accepted")

# The record's thirteen fields, in the record's order.
FIELDS = (
    Column("semimajor_axis_km", "semimajor axis of the orbit", "100 to 250,000"),
    Column("eccentricity", "its eccentricity", "0 to 0.95"),
    Column("inclination_deg", "its inclination", "0 to 180"),
    Column("node_deg", "its node", "0 to below 360"),
    Column("periapsis_argument_deg", "its argument of periapsis", "0 to below 360"),
    Column("period_s", "the craft's period", "60 to 2,000,000"),
    Column("planet_radius_km", "radius of the planet", "1 to 100,000"),
    Column("far_body_right_ascension_deg", "the far body, as seen from the planet", "0 to below 360"),
    Column("far_body_declination_deg", "the same", "-90 to 90"),
    Column("station_latitude_deg", "where the dish is", "-90 to 90"),
    Column("station_east_longitude_deg", "the same", "0 to below 360"),
    Column("greenwich_right_ascension_deg", "of Greenwich, at the epoch", "0 to below 360"),
    Column("least_elevation_deg", "from which the dish sees", "0 to 90"),
)
JOB = Column("job", "a number that each answer comes with", "0 to 4,294,967,295")
START = Column("window_start", "ms from the epoch, or a UTC instant", "before window_end")
END = Column("window_end", "the same", "to 31 days, 2,678,400,000 ms, from the epoch")
STEP = Column("step_ms", "from sample to sample", "1 to 1,048,576, and at most 4,096 steps")
QUESTION = Column("question", "what the list is of", "hidden or visible")
EPOCH = Column("epoch", "a periapsis passage, a UTC instant", "1972 to 9998, whole ms")
NAME = Column("name", "what you call the job", "a line of text")

ALWAYS = (JOB, *FIELDS, START, END, STEP, QUESTION)
IF_WANTED = (EPOCH, NAME)
NEEDED = [column.name for column in ALWAYS]
NAMES = [column.name for column in (*ALWAYS, *IF_WANTED)]
TIMES = {START.name, END.name}
QUESTIONS = {"hidden": 1, "visible": 2}  # their numbers in a record

# What is expected of a name that is there twice, and of one that there is not.
ONCE, KNOWN = "this column once", "a column that there is, as desk --help has them"
