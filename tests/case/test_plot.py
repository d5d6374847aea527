"""case best --plot: what the picture holds."""

from tool import (
    BELOW_ZERO, EVENING, MORNING, OLD_SOURCE, SECOND_SOURCE, SOURCE, SOURCE_LIST, SVG, PictureTest, file_of,
)


class Plot(PictureTest):
    """Pictures of best days."""

    def picture(self, data, name="d.case"):
        """The picture of a case's best day."""
        self.answered("best", self.file(name, data), "--plot", "p.svg", GIQAPSUN_BEST_DAY="")
        return self.drawn()

    def amounts(self, picture):
        """The prices, and then what each hour earns, as they stand below their panels."""
        return [text.text for text in self.kinds(picture, "text", "amount")]

    def prices(self, picture):
        """The heights of the price in each hour, None where it is off the scale; and the height of 0."""
        heights = {}
        for line in self.kinds(picture, "polyline", "price"):
            points = [tuple(map(float, point.split(","))) for point in line.get("points").split()]
            for (x, y), (later, same) in zip(points, points[1:]):
                if later > x:
                    self.assertEqual(y, same)
                    heights[x] = y
        hours = len(self.titles(picture))
        return [heights.get(round(100 + 762 * k / hours, 1)) for k in range(hours)], self.zero(picture)

    def zero(self, picture):
        """The height of 0 in the panel of prices: its tick stands 4 below the line."""
        ticks = [text for text in picture.iter(SVG + "text") if text.get("text-anchor") == "end" and text.text == "0"]
        return next(float(tick.get("y")) - 4 for tick in ticks if 364 <= float(tick.get("y")) - 4 <= 494)

    def test_other_forms(self):
        """The forms of a case have the same picture."""
        self.picture(SOURCE)
        drawn = (self.folder / "p.svg").read_bytes()
        for data in (SECOND_SOURCE, OLD_SOURCE):
            self.picture(data)
            self.assertEqual((self.folder / "p.svg").read_bytes(), drawn)

    def test_sequences_at_the_ends(self):
        """The stage that a day opens in and the one that it closes in, below the outputs on their own sides."""
        opens, closes = "opens in stage 2 of 3 of a shut-down", "closes in stage 2 of 3 of a shut-down, stop at hour 26"
        for data, anchor, words in ((EVENING, "end", closes), (MORNING, "start", opens)):
            picture = self.picture(data)
            notes = [text for text in picture.iter(SVG + "text") if (text.text or "").startswith(("opens", "closes"))]
            self.assertEqual([(note.get("text-anchor"), note.text) for note in notes], [(anchor, words)])
            self.assertTrue(306 + 19 < float(notes[0].get("y")) < 364 - 12)
        self.assertEqual(len(list(picture.iter(SVG + "circle"))), 25)
        self.assertEqual([words for words in self.texts(self.picture(SOURCE)) if "stage" in words], [])

    def test_below_zero(self):
        """Prices below 0 stand below the line of 0, which has its axis; a spike is cut, marked and counted."""
        picture = self.picture(BELOW_ZERO)
        heights, zero = self.prices(picture)
        amounts = self.amounts(picture)[:24]
        self.assertEqual((amounts[10], amounts[19]), ("-22.000", "2,750.000"))
        spikes = [hour for hour, height in enumerate(heights, 1) if height is None]
        self.assertEqual(spikes, [19, 20, 21])
        for height, amount in zip(heights, amounts):
            if height is not None:
                self.assertEqual(height > zero, amount.startswith("-"))
        axes = [line for line in self.kinds(picture, "line", "axis") if line.get("y1") == line.get("y2")]
        self.assertIn(f"{zero:.1f}", [line.get("y1") for line in axes])
        for label in ("-100", "-50", "0", "50", "100", "\u25b2 3 prices above this scale"):
            self.assertIn(label, self.texts(picture))
        marks = self.kinds(picture, "polygon", "cut")
        self.assertEqual([float(mark.get("points").split()[2].split(",")[1]) for mark in marks], [364 - 8] * 3)
        self.assertIn("\u25b2 3 amounts above this scale", self.texts(picture))
        self.coloured(picture)

    def test_spikes(self):
        """A few far prices are cut, upwards and downwards; the others have the scale to themselves."""
        picture = self.picture(file_of(prices=[5, -7, 6, 9_000_000, 8, -4, -10_000_000, 3], orders=[0] * 8))
        heights, zero = self.prices(picture)
        self.assertEqual([hour for hour, height in enumerate(heights, 1) if height is None], [4, 7])
        self.assertEqual([height > zero for height in heights if height], [False, True, False, False, True, False])
        self.assertIn("\u25b2 1 price above this scale, \u25bc 1 price below this scale", self.texts(picture))
        self.assertEqual(len(self.kinds(picture, "polygon", "cut")), 2)

    def test_no_spikes(self):
        """Prices that are far apart evenly, and a single hour, are all on the scale."""
        for prices in ([10**7, -(10**7), 5, 10**7], [-(10**7)], [10**7], [0, 0, 0, 7]):
            picture = self.picture(file_of(prices=prices, orders=[0] * len(prices), variable=0))
            self.assertNotIn(None, self.prices(picture)[0])
            self.assertEqual(self.kinds(picture, "polygon", "cut"), [])

    def test_ticks_have_room(self):
        """The widest label of an axis stands clear of the words beside the axis."""
        data = file_of(capacity=400, rampup=400, rampdown=400, initial=400, prices=[-(10**7)] * 4, orders=[1] * 4,
                       minimum=400, rise=[400], fall=[400])
        ticks = [text for text in self.picture(data).iter(SVG + "text") if text.get("text-anchor") == "end"]
        labels = [tick for tick in ticks if tick.get("transform") is None and tick.get("class") is None]
        self.assertIn("-4,000,000", [label.text for label in labels])
        # a digit of 12 pixels is at most 7.7 wide, a comma or a minus 4.4; the words beside the axis end at 22
        for label in labels:
            width = sum(4.4 if letter in ",.-" else 7.7 for letter in label.text)
            self.assertGreater(float(label.get("x")) - width, 22)

    def test_source_day(self):
        picture = self.picture(SOURCE)
        table = self.answered("best", "d.case", GIQAPSUN_BEST_DAY="")
        self.assertEqual(table, self.answered("best", "d.case", "--plot", "p.svg", GIQAPSUN_BEST_DAY=""))
        texts = self.texts(picture)
        for label in (
            "Best day of d.case", "output p(k) (MW)", "price ($/MWh)", "earnings ($)", "capacity", "minimum",
            "variable cost F",
        ):
            self.assertIn(label, texts)
        for hour in range(25):
            self.assertGreaterEqual(texts.count(str(hour)), 3)
        outputs, prices = [line.get("points").split() for line in picture.iter(SVG + "polyline")]
        self.assertEqual((len(outputs), len(prices)), (25, 48))
        heights = [float(point.split(",")[1]) for point in outputs]
        ranks = [170, *SOURCE_LIST]
        for (a, high), (b, low) in zip(zip(ranks, heights), zip(ranks[1:], heights[1:])):
            self.assertEqual((a > b, a < b), (high < low, high > low))
        self.assertEqual(len(list(picture.iter(SVG + "circle"))), 25)

    def test_earnings(self):
        """A bar and an amount for each hour; losses apart from gains by more than colour."""
        picture = self.picture(SOURCE)
        bars = [bar for bar in picture.iter(SVG + "rect") if bar.get("class") in ("gain", "loss")]
        amounts = self.amounts(picture)[24:]
        self.assertEqual((len(bars), len(amounts)), (24, 24))
        self.assertEqual((amounts[0], amounts[23]), ("-1,702.2500", "-2,153.3500"))
        zero = next(float(bar.get("y")) for bar, amount in zip(bars, amounts) if amount == "0.0000")
        for bar, amount in zip(bars, amounts):
            gain = float(amount.replace(",", "")) > 0
            self.assertEqual(bar.get("class"), "gain" if gain else "loss")
            edge = float(bar.get("y")) + (float(bar.get("height")) if gain else 0)
            self.assertAlmostEqual(edge, zero, delta=0.11)
        self.assertIn(".loss { fill: url(#loss);", picture.find(SVG + "style").text)

    def test_hovers(self):
        """A title for each hour."""
        titles = self.titles(self.picture(SOURCE))
        self.assertEqual(len(titles), 24)
        self.assertEqual(
            titles[2], "hour 3: 70 MW at its end, 91.0 MWh at 22.209 $/MWh, earns -1,536.9810 $"
        )

    def test_orders(self):
        """Ordered hours have letters and a hatch, in every panel."""
        picture = self.picture(file_of(initial=0, prices=[10] * 6, orders=[0, 1, 0, 2, 2, 0]))
        letters = self.kinds(picture, "text", "letters")
        self.assertEqual([text.text for text in letters], ["on", "off"])
        self.assertEqual({pattern.get("id") for pattern in picture.iter(SVG + "pattern")}, {"on", "off", "loss"})
        for order, hours in (("on", 1), ("off", 2)):
            hatched = [rect for rect in self.kinds(picture, "rect", order) if "swatch" not in rect.get("class")]
            self.assertEqual([float(rect.get("width")) for rect in hatched], [127.0 * hours] * 3)
            self.assertIn(f"{order}: ordered {order}-line", self.texts(picture))
        titles = self.titles(picture)
        self.assertTrue(titles[3].startswith("hour 4 (ordered off-line): 0 MW at its end, 0.5 MWh at 0.010 $/MWh"))

    def test_cost_off_the_scale(self):
        note = "variable cost F 1.000 $/MWh is above this scale"
        for prices in ([5] * 3, [-5] * 3, [-990] * 3, [0] * 3, [490, 0, 0]):
            picture = self.picture(file_of(prices=prices, variable=1000))
            self.assertIn(note, self.texts(picture))
            self.assertNotIn("variable cost F", self.texts(picture))
        for prices in ([500] * 3, [-1000] * 3, [400, -250, 400]):
            picture = self.picture(file_of(prices=prices, variable=1000))
            self.assertNotIn(note, self.texts(picture))
            self.assertIn("variable cost F", self.texts(picture))

    def test_no_earnings(self):
        """A day at rest, and one of a single hour."""
        self.picture(file_of(initial=0, variable=0, prices=[0] * 48, orders=[2] * 48))
        self.picture(file_of(prices=[10**7], orders=[0]))

    def test_colours(self):
        self.coloured(self.picture(SOURCE))

    def test_strange_name(self):
        texts = self.texts(self.picture(file_of(), "a&<b>\x01.case"))
        self.assertIn("Best day of a&<b>?.case", texts)
