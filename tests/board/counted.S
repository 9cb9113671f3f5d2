@ Each call of the pod with the time before and behind it. The program calls outer_X, which calls the module's inner_X on
@ the same stack, so that what is handed on there stays where it is.
    .syntax unified
    .thumb
    .text
    .equ value, 0x40000004

    .macro counted name, number
    .globl outer_\name
    .type outer_\name, %function
outer_\name:
    ldr r12, =held
    str lr, [r12]
    str r4, [r12, #4]
    ldr r4, =value
    ldr r4, [r4]
    str r4, [r12, #8]
    ldr r4, [r12, #4]
    bl inner_\name
    ldr r12, =value
    ldr r12, [r12]
    push {r0, r1}
    movs r0, #\number
    mov r1, r12
    bl note
    pop {r0, r1}
    ldr r12, =held
    ldr pc, [r12]
    .ltorg
    .weak inner_\name
    .endm

    counted power_on, 0
    counted packet, 1
    counted put, 2
    counted samples, 3
    counted pipe_byte, 4
    counted pipe_timeout, 5
    counted deadline, 6
    counted command_word, 7
    counted data_in, 8
    counted data_out, 9
    counted status_word, 10
    counted packet_out, 11
    counted taken, 12
    counted empty, 13
    counted known, 14

    .type inner_empty, %function
inner_empty:
    bx lr

    .type inner_known, %function
inner_known:
    .rept 1000
    nop
    .endr
    bx lr
