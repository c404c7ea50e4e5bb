# Two authors write apart, and exchange what they wrote: by a stream, and by a file.
manuscript new ann.ms 1 100
manuscript arrange ann.ms > base.txt
printf '# The sea\nIt was calm.\n' > draft.txt
manuscript revise ann.ms base.txt < draft.txt
manuscript new ben.ms 2 100
manuscript merge ben.ms ann.ms

# Each goes on without the other.
manuscript arrange ann.ms > base.txt
sed 's/calm\./calm. Then it blew./' base.txt > draft.txt
manuscript revise ann.ms base.txt < draft.txt
manuscript arrange ben.ms > base.txt
sed 's/calm/quiet/' base.txt > draft.txt
manuscript revise ben.ms base.txt < draft.txt

# Each takes in what the other has, and both read the same.
manuscript merge ann.ms ben.ms
manuscript send ann.ms | manuscript take ben.ms
manuscript arrange ann.ms
manuscript arrange ben.ms
