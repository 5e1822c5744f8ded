// enter(state): loads the registers, jumps to the code, and saves the registers where the code jumps back. A state has 31
// general registers, the stack pointer, 32 vectors, the flags, and whether a jump was taken. `host` has the registers of
// the caller. tpidr_el0, which the code does not use, keeps x0 until there is a register for the address of the state.
        .section .stubs, "awx"
        .globl enter, jump_to_code, not_taken, taken
        .macro each_register instruction
        .irp n, 2,3,4,5,6,7,8,9,10,11,12,13,14,15,16,17,18,19,20,21,22,23,24,25,26,27,28,29,30
        \instruction x\n, [x0, #8 * \n]
        .endr
        .irp n, 0,1,2,3,4,5,6,7,8,9,10,11,12,13,14,15,16,17,18,19,20,21,22,23,24,25,26,27,28,29,30,31
        \instruction q\n, [x0, #256 + 16 * \n]
        .endr
        .endm
state:  .quad 0
host_tpidr: .quad 0
host:   .skip 256 + 512
enter:  adr x1, state
        mrs x2, tpidr_el0
        stp x0, x2, [x1]        // state, host_tpidr
        adr x0, host
        mov x2, sp
        str x2, [x0, #248]
        each_register str
        ldr x0, state
        ldr x1, [x0, #248]
        mov sp, x1
        ldr x1, [x0, #768]
        msr nzcv, x1
        each_register ldr
        ldp x0, x1, [x0]
jump_to_code:
        b jump_to_code
taken:
        msr tpidr_el0, x0
        ldr x0, state
        str x1, [x0, #8]
        mov x1, #1
        b save
not_taken:
        msr tpidr_el0, x0
        ldr x0, state
        str x1, [x0, #8]
        mov x1, #0
save:   str x1, [x0, #776]
        mrs x1, tpidr_el0
        str x1, [x0]
        mov x1, sp
        str x1, [x0, #248]
        mrs x1, nzcv
        str x1, [x0, #768]
        each_register str
        ldr x0, host_tpidr
        msr tpidr_el0, x0
        adr x0, host
        ldr x1, [x0, #248]
        mov sp, x1
        each_register ldr
        ret
        .section .note.GNU-stack, "", %progbits
