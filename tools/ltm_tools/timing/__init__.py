"""Better signal plans: green times and offsets that shorten the travel time of a loading."""
