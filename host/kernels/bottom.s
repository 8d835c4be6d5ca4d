# Picks the bottom out of a ping: of 128 echo samples, a byte each, the first of the strongest past the blanking distance of 16 samples.
# in:  $4 the samples past the blanking (work)  $5 the numbers 0 to 15, a byte each (table)  $6 = 8
#      $7 the result cell, 16 bytes (work)  $9 the ping's number
# out: halfword 0 of the cell: 256 * strength + 255 - sample; halfwords 1 to 7: the ping's number
    ldi.b    $w1,7               # blocks of 16 samples left
    ldi.b    $w2,0               # the strongest echo so far, in each lane
    ldi.b    $w3,0               # its sample number
    ld.b     $w4,0($5)
    addvi.b  $w4,$w4,16          # the sample numbers of the first block
next:
    ld.b     $w5,0($4)
    clt_u.b  $w6,$w2,$w5         # FF where an echo is stronger than all before it
    bmnz.v   $w3,$w4,$w6         # then keep its number
    max_u.b  $w2,$w2,$w5
    addvi.b  $w4,$w4,16
    subvi.b  $w1,$w1,1
    bnz.b    $w1,next
    dlsa     $4,$6,$4,1          # slot: next block, 16 bytes on
    nori.b   $w3,$w3,0           # 255 - sample: of two equal echoes the earlier is the larger
    ilvr.b   $w7,$w2,$w3         # strength above it, in halfwords
    ilvl.b   $w8,$w2,$w3
    max_u.h  $w7,$w7,$w8
    move.v   $w8,$w7             # the largest of eight: fold by 4, 2 and 1 halfwords
    sldi.b   $w8,$w8[8]
    max_u.h  $w7,$w7,$w8
    move.v   $w8,$w7
    sldi.b   $w8,$w8[4]
    max_u.h  $w7,$w7,$w8
    move.v   $w8,$w7
    sldi.b   $w8,$w8[2]
    max_u.h  $w7,$w7,$w8
    fill.h   $w9,$9              # the cell: the ping's number, and the result in halfword 0
    insve.h  $w9[0],$w7[0]
    st.h     $w9,0($7)
