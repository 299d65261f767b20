/ What GCC calls where the machine has no instruction: the arguments are on the stack, and the result is r0, or r0 and r1.
	.globl	___mulsi3, ___divsi3, ___modsi3, ___udivsi3, ___umodsi3, ___udivhi3, ___umodhi3
___mulsi3:
	jmp	lmul
___divsi3:
	jmp	ldiv
___modsi3:
	jmp	lrem
___udivsi3:
	jmp	uldiv
___umodsi3:
	jmp	ulrem
___udivhi3:
	mov	2(sp),r0
	mov	4(sp),r1
	jmp	udiv
___umodhi3:
	mov	2(sp),r0
	mov	4(sp),r1
	jmp	urem

/ What GCC calls at the beginning of main: there is nothing to be done.
	.globl	___main
___main:
	rts	pc
