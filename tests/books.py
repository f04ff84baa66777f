"""Random books for the page's tests: few carriers and many, dense ticks and sparse, T from 0 to 1,000,000."""
import random
import struct

MODELS, SHEETS, RECORDS, LAST_TICK = 64, 256, 4096, 1_000_000
SHEET_KINDS = 4


def book(group, ticks, words):
    """A book of these event words, in any order."""
    header = (20 + 4 * len(words), ticks, len(words), 20, group)
    return struct.pack(f"<{5 + len(words)}I", *header, *sorted(words))


def strip(dice, ticks, count, first_kind, number, liberal):
    """Event words of one carrier: entering and leaving in turn, strict or liberal by chance."""
    at = sorted(dice.sample(range(1, ticks + 1), min(count, ticks)))
    return [tick * 4096 + (first_kind + place % 2 * 2 + (dice.random() < liberal)) * 512 + number for place, tick in enumerate(at)]


def random_book(seed):
    """The same book for the same seed."""
    dice = random.Random(seed)
    ticks = dice.choice([0, 1, 2, 6, 6, 40, 180, 4_096, LAST_TICK])
    models = dice.sample(range(MODELS), dice.choice([0, 1, 3, 12]))
    sheets = dice.sample(range(SHEETS), dice.choice([0, 1, 4, 30]))
    liberal, most = dice.random(), dice.choice([1, 3, 8])
    words = []
    for kind, numbers in ((0, models), (SHEET_KINDS, sheets)):
        for number in numbers:
            words += strip(dice, ticks, dice.randint(0, most), kind, number, liberal)
    return book(dice.randrange(16), ticks, words[:RECORDS])


def full_book(seed, ticks):
    """All models and sheets, and as many records as a book holds."""
    dice = random.Random(seed)
    carriers = [(0, number) for number in range(MODELS)] + [(SHEET_KINDS, number) for number in range(SHEETS)]
    counts = dict.fromkeys(carriers, 1)
    for carrier in dice.choices(carriers, k=RECORDS - len(carriers)):
        counts[carrier] += 1
    words = [word for (kind, number), count in counts.items() for word in strip(dice, ticks, count, kind, number, 0.5)]
    return book(dice.randrange(16), ticks, words)


def fullest_book():
    """As many spans as a book can have: every sheet in, every model joining liberally and leaving strictly
    as often as the records last."""
    words = [4096 + 5 * 512 + sheet for sheet in range(SHEETS)]
    events = (RECORDS - SHEETS) // MODELS
    for model in range(MODELS):
        words += [(2 + place * 17 + model % 13) * 4096 + (1 + place % 2) * 512 + model for place in range(events)]
    return book(0, 2_000, words)


def removed_book():
    """Every model in, and the sheets added and removed strictly as often as the records last, over a million ticks."""
    words = [4096 + 512 + model for model in range(MODELS)]
    events = (RECORDS - MODELS) // SHEETS
    for sheet in range(SHEETS):
        words += [(2 + place * (LAST_TICK // (events + 1)) + sheet * 211) * 4096 + (5 + place % 2) * 512 + sheet for place in range(events)]
    return book(0, LAST_TICK, words)


def one_model_book(joins):
    """Every sheet in, and model 0 alone, which joins liberally so many times and leaves strictly in between."""
    words = [4096 + 5 * 512 + sheet for sheet in range(SHEETS)]
    words += [(2 + place) * 4096 + (1 + place % 2) * 512 for place in range(2 * joins)]
    return book(0, 2 * joins + 1, words)
