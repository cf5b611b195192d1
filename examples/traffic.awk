# A script of 300 sales: awk -f examples/traffic.awk
# Each sale of 1 to 9 bags of tea is settled at once. The page gets the sales and reports after each 8th of them, and in the rush,
# from sale 101 to 200, after each 20th. After a report as many lines settle as sales can wait by then; a line that finds nothing to
# settle is refused, and changes nothing.
BEGIN {
    print "object tea 4000\nsite page 64\nlimit page object tea 20\nstart"
    bags = 1
    for (sale = 1; sale <= 300; sale++) {
        bags = (bags * 75 + 74) % 65537
        print "propose add:tea:-" 1 + bags % 9 "\nsettle"
        unsent++
        if (sale % (sale > 100 && sale <= 200 ? 20 : 8) == 0) {
            for (; unsent > 0; unsent--) print "send page\napply page"
            print "report page"
            for (line = 1; line <= 21; line++) print "settle"
        }
    }
}
