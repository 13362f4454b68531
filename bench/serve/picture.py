"""A picture of bench/serve.sh's medians: for each work a bar for each peer, on a scale of powers of ten."""

import math

COLOURS = {"floor": "#bbbbbb", "plain": "#88aa88", "smtp-sink": "#ccaa66", "dovecot": "#bb5544", "ours": "#224488"}
WIDTH, LEFT, BAR, GAP, TOP = 760, 110, 14, 12, 50


def drawn(works, names, rates):
    """An SVG; `rates` has deliveries a second by work and peer."""
    least, most = math.floor(math.log10(min(rates.values()))), math.ceil(math.log10(max(rates.values())))
    scale = (WIDTH - LEFT - 90) / (most - least)
    parts, y = [], TOP
    for power in range(least, most + 1):
        x = LEFT + scale * (power - least)
        parts.append(f'<text x="{x:.0f}" y="{TOP - 8}" text-anchor="middle" fill="gray">{10**power:,}</text>')
    for work in works:
        parts.append(f'<text x="8" y="{y + BAR - 3}" font-weight="bold">{work}</text>')
        for name in names:
            rate = rates[work, name]
            length = max(1.0, scale * (math.log10(rate) - least))
            colour = COLOURS.get(name, "#777777")
            parts.append(f'<text x="{LEFT - 6}" y="{y + BAR - 3}" text-anchor="end">{name}</text>')
            parts.append(f'<rect x="{LEFT}" y="{y}" width="{length:.1f}" height="{BAR - 2}" fill="{colour}"/>')
            parts.append(f'<text x="{LEFT + length + 4:.0f}" y="{y + BAR - 3}">{rate:,.0f}</text>')
            y += BAR
        y += GAP
    size = f'width="{WIDTH}" height="{y}" font-family="sans-serif" font-size="11"'
    head = f'<svg xmlns="http://www.w3.org/2000/svg" {size}>'
    title = "<title>Deliveries a second of each server, by work</title>"
    caption = '<text x="8" y="18" font-size="13">Deliveries a second, medians, on a scale of powers of ten</text>'
    return "\n".join([head, title, '<rect width="100%" height="100%" fill="white"/>', caption, *parts, "</svg>", ""])
