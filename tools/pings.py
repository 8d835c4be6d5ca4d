"""pings.py: writes host/pings.txt, a ping a line, and host/pings.expected, what the announcer must print of them, by a search of its own."""
import os
import random

ROOT = os.path.dirname(os.path.dirname(os.path.abspath(__file__)))
SAMPLES, BLANKING, FAINT = 128, 16, 32
random.seed(7)


def ping(bottom, strength, noise=20):
    s = [random.randrange(noise) for _ in range(SAMPLES)]
    s[:BLANKING] = [255 - 8 * i for i in range(BLANKING)]
    if bottom is not None:
        for k, part in enumerate((1.0, 0.7, 0.4, 0.2)):
            if bottom + k < SAMPLES:
                s[bottom + k] = max(s[bottom + k], int(strength * part))
    return s


pings = [ping(58, 231), ping(16, 200), ping(127, 255), ping(90, 140), ping(None, 0), ping(33, 32, 10)]
twice = ping(70, 180)
twice[101] = 180  # an echo as strong, later: the first counts
pings.append(twice)
pings += [ping(random.randrange(BLANKING, SAMPLES), random.randrange(60, 256)) for _ in range(24)]
pings.append([255] * SAMPLES)
pings.append([0] * SAMPLES)

with open(os.path.join(ROOT, "host", "pings.txt"), "w") as out, open(os.path.join(ROOT, "host", "pings.expected"), "w") as want:
    for number, s in enumerate(pings, 1):
        out.write(bytes(s).hex() + "\n")
        strength = max(s[BLANKING:])
        depth = (s.index(strength, BLANKING)) * 25
        if strength < FAINT:
            want.write(f"ping {number}: no bottom (strongest echo {strength})\n")
        else:
            want.write(f"ping {number}: {depth // 100}.{depth % 100:02d} m (strength {strength})\n")
