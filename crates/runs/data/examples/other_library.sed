s/th22n_x1/TH22N/; s/nor2_x1/TH12B/
s/th\([0-9][0-9w]*\)_x[0-9]*/TH\1/
s/\.i0(/.A(/; s/\.i1(/.B(/
s/\.i2(/.C(/; s/\.i3(/.D(/
s/\.q(/.Z(/; s/\.reset(/.RST(/
