"""Balises for lines made at random. A place is in metres from point 0."""

MOST_BALISES = 64


def set_balises(line, places):
    """Puts the line's balises at these places, and gives the line."""
    line.balise_points = [place // line.L for place in places]
    line.balise_metres = [place % line.L for place in places]
    return line


def last_place(line):
    return (line.P - 1) * line.L


def anywhere(rng, line):
    return range(last_place(line) + 1)


def about_points(rng, line):
    """At each point, and on both sides of it."""
    return [place for point in range(line.P) for place in range(point * line.L - 1, point * line.L + 2)]


def close_together(rng, line):
    """In one to three short stretches, with none between them."""
    starts = [rng.randint(0, last_place(line)) for _ in range(rng.randint(1, 3))]
    return [start + off for start in starts for off in range(rng.choice([5, 25, 70]))]


def some_places(rng, line):
    """Places for none, one, a few or up to 64 balises, rising; those of the first and the last point are often among them."""
    last = last_place(line)
    count = rng.choice([0, 0, 1, 1, rng.randint(2, 6), rng.randint(2, 6), rng.randint(7, 40), MOST_BALISES])
    pool = {place for place in rng.choice([anywhere, about_points, close_together])(rng, line) if 0 <= place <= last}
    places = rng.sample(sorted(pool), min(count, len(pool)))
    for i, end in enumerate((0, last)):
        if i < len(places) and end not in places and rng.random() < 0.3:
            places[i] = end
    return sorted(places)


def with_some_balises(rng, line):
    return set_balises(line, some_places(rng, line))
