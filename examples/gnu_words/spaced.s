movw r0, #lo(hole)
movw r1, #lo(after)
movw r2, #lo(end)
movt r2, #hi(end)
here: b here
.word after
.data
start: .word 1
.word end
.word here
.byte 2
hole: .space 7
after: .space 65536
end:
.text
bl here
