/ A child for each place in the table, which goes there and fails. The parent waits for one after the other.
	mov	$table,r4
1:
	sys	fork
	br	child
	sys	wait
	tst	(r4)+
	tst	(r4)
	bne	1b
	sys	exit
child:
	clr	r0
	jmp	*(r4)			/ where the word at r4 says
illegal:
	7				/ no instruction
trace:	bpt
lot:	iot
emul:	emt	1
odd:	mov	*$1,r1
behind:	mov	*$40000,r1
call:	sys	63.
bad:	sys	stat; 40000; 0
setd:	170011
	sys	exit
	.even
table:	illegal; trace; lot; emul; odd; behind; call; bad; setd; 0
