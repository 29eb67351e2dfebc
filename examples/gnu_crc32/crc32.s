@ The CRC-32 of a text, with a table that is made first: for each byte, what it does to the remainder. It is printed as
@ hexadecimal digits, with the text, and is to be cbf43926, the known check value for these nine digits.
        .syntax unified
        .arch   armv6k
        .arm

        .text
        .global _start
_start: bl      make_table
        ldr     r0, =text
        mov     r1, #text_length
        bl      remainder_of
        ldr     r1, =digits
        bl      show
        mov     r0, #1          @ descriptor 1
        ldr     r1, =line
        mov     r2, #line_length
        mov     r7, #4          @ write
        svc     #0
        mov     r0, #0
        mov     r7, #1          @ exit
        svc     #0

@ Fills the table: each byte is divided, bit by bit, by the polynomial, whose bits stand the other way round.
make_table:
        ldr     r1, =table
        ldr     r2, =0xedb88320
        mov     r3, #0          @ the byte
1:      mov     r0, r3
        mov     r12, #8
2:      lsrs    r0, r0, #1
        eorcs   r0, r0, r2
        subs    r12, r12, #1
        bne     2b
        str     r0, [r1, r3, lsl #2]
        add     r3, r3, #1
        cmp     r3, #256
        bne     1b
        bx      lr

@ The remainder of the r1 bytes at r0.
remainder_of:
        ldr     r2, =table
        mvn     r3, #0          @ what is left so far
1:      ldrb    r12, [r0], #1
        eor     r12, r12, r3
        uxtb    r12, r12
        ldr     r12, [r2, r12, lsl #2]
        eor     r3, r12, r3, lsr #8
        subs    r1, r1, #1
        bne     1b
        mvn     r0, r3
        bx      lr

@ Writes r0 to r1 as eight hexadecimal digits.
show:   mov     r12, #8
1:      lsr     r2, r0, #28
        lsl     r0, r0, #4
        cmp     r2, #10
        addlo   r2, r2, #'0'
        addhs   r2, r2, #'a' - 10
        strb    r2, [r1], #1
        subs    r12, r12, #1
        bne     1b
        bx      lr

        .section .rodata
text:   .ascii  "123456789"
        .equ    text_length, . - text

        .data
line:   .ascii  "crc32 of 123456789 is "
digits: .ascii  "........\n"
        .equ    line_length, . - line

        .bss
        .balign 4
table:  .space  256 * 4
