# Writes villages of 1,000 lines each as features, one a line: streets between the nodes of a grid, each
# street cut into three lines, and lanes from some nodes. Every other line, by chance, is drawn against its
# street. Coordinates are metres with two decimals.
#   awk -v villages=1000 -f roads.awk

function chance() {
    seed = (seed * 69069 + 1) % 4294967296
    return seed / 4294967296
}

# A line of six points, whose inner ones lie up to 10 metres off.
function line(ax, ay, bx, by, kind,    turned, text, k, t, x, y) {
    turned = chance() < 0.5
    for (k = 0; k <= 5; k++) {
        t = turned ? 5 - k : k
        x = ax + (bx - ax) * t / 5
        y = ay + (by - ay) * t / 5
        if (k > 0 && k < 5) {
            x += 20 * chance() - 10
            y += 20 * chance() - 10
        }
        text = text (k ? "," : "") sprintf("[%.2f,%.2f]", x, y)
    }
    printf "{\"type\":\"Feature\",\"properties\":{\"id\":%d,\"kind\":\"%s\",\"village\":%d},", id++, kind, village
    printf "\"geometry\":{\"type\":\"LineString\",\"coordinates\":[%s]}}\n", text
}

function street(ax, ay, bx, by,    k) {
    for (k = 0; k < 3; k++)
        line(ax + (bx - ax) * k / 3, ay + (by - ay) * k / 3, ax + (bx - ax) * (k + 1) / 3,
            ay + (by - ay) * (k + 1) / 3, "street")
}

BEGIN {
    seed = 7
    id = 0
    for (village = 0; village < villages; village++) {
        west = 300000 + village % 40 * 6000
        south = 7000000 + int(village / 40) * 6000
        for (i = 0; i < 13; i++)
            for (j = 0; j < 12; j++) {
                street(west + i * 360, south + j * 360, west + i * 360, south + (j + 1) * 360)
                street(west + j * 360, south + i * 360, west + (j + 1) * 360, south + i * 360)
            }
        for (i = 0; i < 64; i++) {
            x = west + i % 12 * 360
            y = south + int(i / 12) * 360
            line(x, y, x + 90, y + 90, "lane")
        }
    }
}
