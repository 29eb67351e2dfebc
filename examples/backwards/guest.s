@ Prints a text backwards: it stands in the data, with the number of its letters before it and space behind it.
        movw r0, #lo(length)    @ an address, by halves
        movt r0, #hi(length)
        ldr r3, [r0], #4        @ the letters to go; r0 is the text's address now
        movw r1, #lo(result)
        movt r1, #hi(result)
        mov r2, #0              @ the letters that are copied
copy:   subs r3, r3, #1
        ldrb r4, [r0, r3]       @ the last letter first
        strb r4, [r1, r2]
        add r2, r2, #1
        bne copy
        mov r4, #0x0a           @ a newline
        strb r4, [r1, r2]
        add r2, r2, #1
        mov r0, #1              @ descriptor 1
        mov r7, #4              @ write, of the r2 bytes at r1
        svc #0
        mov r0, #0
        mov r7, #1              @ exit
        svc #0

        .data
length: .word 4
text:   .byte 0x70              @ p
        .byte 0x6f              @ o
        .byte 0x74              @ t
        .byte 0x73              @ s
result: .space 5
