"""Compares the times of two programs that ran by turns: compare.py OWN PLAIN prints the median of each file's numbers,
the median of the ratios, plain over own in each turn, and how far these spread."""
import statistics
import sys

TOO_NOISY = 10


def median_and_spread(values):
    """The median, and how many per cent of it lie between the quartiles."""
    middle = statistics.median(values)
    first, _, third = statistics.quantiles(values, n=4, method='inclusive')
    return middle, 100 * (third - first) / middle


def compare(own, plain):
    """The median of each, of their ratios, and the spread of these."""
    ratio, spread = median_and_spread([p / o for o, p in zip(own, plain)])
    return {'own': statistics.median(own), 'plain': statistics.median(plain), 'ratio': ratio, 'spread': spread}


def ratio_text(row):
    """A ratio with its spread, which says where the machine is too noisy to tell."""
    noisy = '' if row['spread'] <= TOO_NOISY else ', noisy'
    return f"{row['ratio']:.2f} ({row['spread']:.0f} %{noisy})"


if __name__ == '__main__':
    found = compare(*([float(line) for line in open(name)] for name in sys.argv[1:3]))
    print(f"{found['own']:6.0f} ns  {found['plain']:4.0f} ns  {ratio_text(found)}")
