/*
 * unftp_control 0.4.0: the program control_demo, for Linux on x86-64.
 * This file is generated: generated/README.md says how.
 *
 * made by: tools/generated --write
 * toolchain: rattle-kit-13f logic dac8208d650f15bf
 * sources: sha256 5afc2ddb492e0026433c6812e78991e1db29763fe67e7c12bf9a4e0684dd10c8
 */
	.section	".text.std_io::io::error::Error::from_raw_os_error","ax",@progbits
	.p2align	4
	.type	"std_io::io::error::Error::from_raw_os_error",@function
"std_io::io::error::Error::from_raw_os_error":
	movb	$41, %al
	testl	%esi, %esi
	js	.LBB0_40
	leal	-1(%rsi), %ecx
	cmpl	$121, %ecx
	ja	.LBB0_40
	leaq	.LJTI0_0(%rip), %rdx
	movslq	(%rdx,%rcx,4), %rcx
	addq	%rdx, %rcx
	jmpq	*%rcx
.LBB0_3:
	movb	$1, %al
	jmp	.LBB0_40
.LBB0_24:
	movb	$36, %al
	jmp	.LBB0_40
.LBB0_36:
	movb	$4, %al
	jmp	.LBB0_40
.LBB0_33:
	movb	$7, %al
	jmp	.LBB0_40
.LBB0_39:
	movb	$26, %al
	jmp	.LBB0_40
.LBB0_37:
	movb	$39, %al
	jmp	.LBB0_40
.LBB0_28:
	movb	$9, %al
	jmp	.LBB0_40
.LBB0_27:
	movb	$8, %al
	jmp	.LBB0_40
.LBB0_22:
	movb	$30, %al
	jmp	.LBB0_40
.LBB0_18:
	movb	$25, %al
	jmp	.LBB0_40
.LBB0_20:
	movb	$32, %al
	jmp	.LBB0_40
.LBB0_23:
	movb	$33, %al
	jmp	.LBB0_40
.LBB0_34:
	movb	$22, %al
	jmp	.LBB0_40
.LBB0_11:
	movb	$31, %al
	jmp	.LBB0_40
.LBB0_15:
	movb	$29, %al
	jmp	.LBB0_40
.LBB0_26:
	movb	$18, %al
	jmp	.LBB0_40
.LBB0_29:
	movb	$10, %al
	jmp	.LBB0_40
.LBB0_9:
	movb	$28, %al
	jmp	.LBB0_40
.LBB0_12:
	movb	$14, %al
	jmp	.LBB0_40
.LBB0_10:
	movb	$12, %al
	jmp	.LBB0_40
.LBB0_30:
	movb	$5, %al
	jmp	.LBB0_40
.LBB0_32:
	movb	$3, %al
	jmp	.LBB0_40
.LBB0_4:
	xorl	%eax, %eax
	jmp	.LBB0_40
.LBB0_7:
	movb	$13, %al
	jmp	.LBB0_40
.LBB0_8:
	movb	$38, %al
	jmp	.LBB0_40
.LBB0_21:
	movb	$11, %al
	jmp	.LBB0_40
.LBB0_5:
	movb	$35, %al
	jmp	.LBB0_40
.LBB0_6:
	movb	$34, %al
	jmp	.LBB0_40
.LBB0_14:
	movb	$20, %al
	jmp	.LBB0_40
.LBB0_13:
	movb	$15, %al
	jmp	.LBB0_40
.LBB0_38:
	movb	$19, %al
	jmp	.LBB0_40
.LBB0_25:
	movb	$16, %al
	jmp	.LBB0_40
.LBB0_31:
	movb	$6, %al
	jmp	.LBB0_40
.LBB0_16:
	movb	$27, %al
	jmp	.LBB0_40
.LBB0_17:
	movb	$24, %al
	jmp	.LBB0_40
.LBB0_35:
	movb	$2, %al
	jmp	.LBB0_40
.LBB0_19:
	movb	$17, %al
.LBB0_40:
	movb	$0, (%rdi)
	movb	%al, 1(%rdi)
	movw	$0, 2(%rdi)
	movl	%esi, 4(%rdi)
	xorps	%xmm0, %xmm0
	movups	%xmm0, 8(%rdi)
	movups	%xmm0, 24(%rdi)
	movups	%xmm0, 40(%rdi)
	movups	%xmm0, 56(%rdi)
	movups	%xmm0, 72(%rdi)
	retq
.Lfunc_end0:
	.size	"std_io::io::error::Error::from_raw_os_error", .Lfunc_end0-"std_io::io::error::Error::from_raw_os_error"
	.section	".rodata.std_io::io::error::Error::from_raw_os_error","a",@progbits
	.p2align	2, 0x0
.LJTI0_0:
	.long	.LBB0_3-.LJTI0_0
	.long	.LBB0_4-.LJTI0_0
	.long	.LBB0_40-.LJTI0_0
	.long	.LBB0_5-.LJTI0_0
	.long	.LBB0_40-.LJTI0_0
	.long	.LBB0_40-.LJTI0_0
	.long	.LBB0_6-.LJTI0_0
	.long	.LBB0_40-.LJTI0_0
	.long	.LBB0_40-.LJTI0_0
	.long	.LBB0_40-.LJTI0_0
	.long	.LBB0_7-.LJTI0_0
	.long	.LBB0_8-.LJTI0_0
	.long	.LBB0_3-.LJTI0_0
	.long	.LBB0_40-.LJTI0_0
	.long	.LBB0_40-.LJTI0_0
	.long	.LBB0_9-.LJTI0_0
	.long	.LBB0_10-.LJTI0_0
	.long	.LBB0_11-.LJTI0_0
	.long	.LBB0_40-.LJTI0_0
	.long	.LBB0_12-.LJTI0_0
	.long	.LBB0_13-.LJTI0_0
	.long	.LBB0_14-.LJTI0_0
	.long	.LBB0_40-.LJTI0_0
	.long	.LBB0_40-.LJTI0_0
	.long	.LBB0_40-.LJTI0_0
	.long	.LBB0_15-.LJTI0_0
	.long	.LBB0_16-.LJTI0_0
	.long	.LBB0_17-.LJTI0_0
	.long	.LBB0_18-.LJTI0_0
	.long	.LBB0_19-.LJTI0_0
	.long	.LBB0_20-.LJTI0_0
	.long	.LBB0_21-.LJTI0_0
	.long	.LBB0_40-.LJTI0_0
	.long	.LBB0_40-.LJTI0_0
	.long	.LBB0_22-.LJTI0_0
	.long	.LBB0_23-.LJTI0_0
	.long	.LBB0_40-.LJTI0_0
	.long	.LBB0_24-.LJTI0_0
	.long	.LBB0_25-.LJTI0_0
	.long	.LBB0_26-.LJTI0_0
	.long	.LBB0_40-.LJTI0_0
	.long	.LBB0_40-.LJTI0_0
	.long	.LBB0_40-.LJTI0_0
	.long	.LBB0_40-.LJTI0_0
	.long	.LBB0_40-.LJTI0_0
	.long	.LBB0_40-.LJTI0_0
	.long	.LBB0_40-.LJTI0_0
	.long	.LBB0_40-.LJTI0_0
	.long	.LBB0_40-.LJTI0_0
	.long	.LBB0_40-.LJTI0_0
	.long	.LBB0_40-.LJTI0_0
	.long	.LBB0_40-.LJTI0_0
	.long	.LBB0_40-.LJTI0_0
	.long	.LBB0_40-.LJTI0_0
	.long	.LBB0_40-.LJTI0_0
	.long	.LBB0_40-.LJTI0_0
	.long	.LBB0_40-.LJTI0_0
	.long	.LBB0_40-.LJTI0_0
	.long	.LBB0_40-.LJTI0_0
	.long	.LBB0_40-.LJTI0_0
	.long	.LBB0_40-.LJTI0_0
	.long	.LBB0_40-.LJTI0_0
	.long	.LBB0_40-.LJTI0_0
	.long	.LBB0_40-.LJTI0_0
	.long	.LBB0_40-.LJTI0_0
	.long	.LBB0_40-.LJTI0_0
	.long	.LBB0_40-.LJTI0_0
	.long	.LBB0_40-.LJTI0_0
	.long	.LBB0_40-.LJTI0_0
	.long	.LBB0_40-.LJTI0_0
	.long	.LBB0_40-.LJTI0_0
	.long	.LBB0_40-.LJTI0_0
	.long	.LBB0_40-.LJTI0_0
	.long	.LBB0_40-.LJTI0_0
	.long	.LBB0_40-.LJTI0_0
	.long	.LBB0_40-.LJTI0_0
	.long	.LBB0_40-.LJTI0_0
	.long	.LBB0_40-.LJTI0_0
	.long	.LBB0_40-.LJTI0_0
	.long	.LBB0_40-.LJTI0_0
	.long	.LBB0_40-.LJTI0_0
	.long	.LBB0_40-.LJTI0_0
	.long	.LBB0_40-.LJTI0_0
	.long	.LBB0_40-.LJTI0_0
	.long	.LBB0_40-.LJTI0_0
	.long	.LBB0_40-.LJTI0_0
	.long	.LBB0_40-.LJTI0_0
	.long	.LBB0_40-.LJTI0_0
	.long	.LBB0_40-.LJTI0_0
	.long	.LBB0_40-.LJTI0_0
	.long	.LBB0_40-.LJTI0_0
	.long	.LBB0_40-.LJTI0_0
	.long	.LBB0_40-.LJTI0_0
	.long	.LBB0_40-.LJTI0_0
	.long	.LBB0_24-.LJTI0_0
	.long	.LBB0_40-.LJTI0_0
	.long	.LBB0_40-.LJTI0_0
	.long	.LBB0_27-.LJTI0_0
	.long	.LBB0_28-.LJTI0_0
	.long	.LBB0_29-.LJTI0_0
	.long	.LBB0_30-.LJTI0_0
	.long	.LBB0_40-.LJTI0_0
	.long	.LBB0_31-.LJTI0_0
	.long	.LBB0_32-.LJTI0_0
	.long	.LBB0_40-.LJTI0_0
	.long	.LBB0_40-.LJTI0_0
	.long	.LBB0_33-.LJTI0_0
	.long	.LBB0_40-.LJTI0_0
	.long	.LBB0_40-.LJTI0_0
	.long	.LBB0_34-.LJTI0_0
	.long	.LBB0_35-.LJTI0_0
	.long	.LBB0_40-.LJTI0_0
	.long	.LBB0_36-.LJTI0_0
	.long	.LBB0_40-.LJTI0_0
	.long	.LBB0_37-.LJTI0_0
	.long	.LBB0_38-.LJTI0_0
	.long	.LBB0_40-.LJTI0_0
	.long	.LBB0_40-.LJTI0_0
	.long	.LBB0_40-.LJTI0_0
	.long	.LBB0_40-.LJTI0_0
	.long	.LBB0_40-.LJTI0_0
	.long	.LBB0_39-.LJTI0_0

	.section	".text.unlikely.std_alloc::vec::Vec::grow_amortized::<#0664299079b05c43>","ax",@progbits
	.p2align	4
	.type	"std_alloc::vec::Vec::grow_amortized::<#0664299079b05c43>",@function
"std_alloc::vec::Vec::grow_amortized::<#0664299079b05c43>":
	movq	%rsi, %rax
	movq	8(%rdi), %rsi
	addq	%rsi, %rax
	jae	.LBB1_2
	xorl	%eax, %eax
	retq
.LBB1_2:
	pushq	%r14
	pushq	%rbx
	pushq	%rax
	cmpq	$9, %rax
	movl	$8, %ebx
	cmovaeq	%rax, %rbx
	movq	16(%rdi), %rcx
	movq	%rcx, %rdx
	shrq	$62, %rdx
	leaq	(%rcx,%rcx), %rax
	cmpq	%rax, %rbx
	cmovaq	%rbx, %rax
	testq	%rdx, %rdx
	cmoveq	%rax, %rbx
	testq	%rbx, %rbx
	js	.LBB1_6
	testq	%rcx, %rcx
	je	.LBB1_8
	movq	%rdi, %r14
	movq	(%rdi), %rdi
	movl	$1, %ecx
	movq	%rbx, %rdx
	callq	rattle_realloc@PLT
	testb	$1, %al
	je	.LBB1_6
.LBB1_9:
	movq	%rdx, (%r14)
	movq	%rbx, 16(%r14)
	movb	$1, %al
	addq	$8, %rsp
	popq	%rbx
	popq	%r14
	retq
.LBB1_8:
	movq	%rdi, %r14
	movl	$1, %esi
	movq	%rax, %rdi
	callq	rattle_alloc@PLT
	testb	$1, %al
	jne	.LBB1_9
.LBB1_6:
	xorl	%eax, %eax
	addq	$8, %rsp
	popq	%rbx
	popq	%r14
	retq
.Lfunc_end1:
	.size	"std_alloc::vec::Vec::grow_amortized::<#0664299079b05c43>", .Lfunc_end1-"std_alloc::vec::Vec::grow_amortized::<#0664299079b05c43>"

	.section	.rodata.cst16,"aM",@progbits,16
	.p2align	4, 0x0
.LCPI2_0:
	.zero	16,10
.LCPI2_1:
	.byte	33
	.byte	33
	.byte	33
	.byte	33
	.zero	1
	.zero	1
	.zero	1
	.zero	1
	.zero	1
	.zero	1
	.zero	1
	.zero	1
	.zero	1
	.zero	1
	.zero	1
	.zero	1
.LCPI2_2:
	.byte	32
	.byte	32
	.zero	1
	.zero	1
	.zero	1
	.zero	1
	.zero	1
	.zero	1
	.zero	1
	.zero	1
	.zero	1
	.zero	1
	.zero	1
	.zero	1
	.zero	1
	.zero	1
.LCPI2_3:
	.zero	16,13
.LCPI2_4:
	.byte	14
	.byte	14
	.byte	14
	.byte	14
	.byte	14
	.byte	14
	.byte	14
	.byte	14
	.zero	1
	.zero	1
	.zero	1
	.zero	1
	.zero	1
	.zero	1
	.zero	1
	.zero	1
.LCPI2_5:
	.byte	14
	.byte	14
	.byte	14
	.byte	14
	.zero	1
	.zero	1
	.zero	1
	.zero	1
	.zero	1
	.zero	1
	.zero	1
	.zero	1
	.zero	1
	.zero	1
	.zero	1
	.zero	1
.LCPI2_6:
	.zero	16,159
.LCPI2_7:
	.zero	16,25
.LCPI2_8:
	.zero	16,224
.LCPI2_9:
	.byte	159
	.byte	159
	.byte	159
	.byte	159
	.byte	159
	.byte	159
	.byte	159
	.byte	159
	.zero	1
	.zero	1
	.zero	1
	.zero	1
	.zero	1
	.zero	1
	.zero	1
	.zero	1
.LCPI2_10:
	.byte	26
	.byte	26
	.byte	26
	.byte	26
	.byte	26
	.byte	26
	.byte	26
	.byte	26
	.zero	1
	.zero	1
	.zero	1
	.zero	1
	.zero	1
	.zero	1
	.zero	1
	.zero	1
.LCPI2_11:
	.byte	224
	.byte	224
	.byte	224
	.byte	224
	.byte	224
	.byte	224
	.byte	224
	.byte	224
	.zero	1
	.zero	1
	.zero	1
	.zero	1
	.zero	1
	.zero	1
	.zero	1
	.zero	1
.LCPI2_12:
	.byte	85
	.byte	110
	.byte	107
	.byte	110
	.byte	111
	.byte	119
	.byte	110
	.byte	32
	.byte	99
	.byte	111
	.byte	109
	.byte	109
	.byte	97
	.byte	110
	.byte	100
	.byte	58
.LCPI2_13:
	.byte	85
	.byte	84
	.byte	70
	.byte	45
	.zero	1
	.zero	1
	.zero	1
	.zero	1
	.zero	1
	.zero	1
	.zero	1
	.zero	1
	.zero	1
	.zero	1
	.zero	1
	.zero	1
.LCPI2_14:
	.byte	121
	.byte	115
	.byte	32
	.byte	105
	.zero	1
	.zero	1
	.zero	1
	.zero	1
	.zero	1
	.zero	1
	.zero	1
	.zero	1
	.zero	1
	.zero	1
	.zero	1
	.zero	1
.LCPI2_15:
	.byte	56
	.byte	32
	.byte	109
	.byte	111
	.zero	1
	.zero	1
	.zero	1
	.zero	1
	.zero	1
	.zero	1
	.zero	1
	.zero	1
	.zero	1
	.zero	1
	.zero	1
	.zero	1
.LCPI2_16:
	.byte	110
	.byte	32
	.byte	85
	.byte	84
	.zero	1
	.zero	1
	.zero	1
	.zero	1
	.zero	1
	.zero	1
	.zero	1
	.zero	1
	.zero	1
	.zero	1
	.zero	1
	.zero	1
.LCPI2_17:
	.byte	100
	.byte	101
	.byte	32
	.byte	110
	.zero	1
	.zero	1
	.zero	1
	.zero	1
	.zero	1
	.zero	1
	.zero	1
	.zero	1
	.zero	1
	.zero	1
	.zero	1
	.zero	1
.LCPI2_18:
	.byte	70
	.byte	45
	.byte	56
	.byte	32
	.zero	1
	.zero	1
	.zero	1
	.zero	1
	.zero	1
	.zero	1
	.zero	1
	.zero	1
	.zero	1
	.zero	1
	.zero	1
	.zero	1
.LCPI2_19:
	.byte	111
	.byte	116
	.byte	32
	.byte	115
	.zero	1
	.zero	1
	.zero	1
	.zero	1
	.zero	1
	.zero	1
	.zero	1
	.zero	1
	.zero	1
	.zero	1
	.zero	1
	.zero	1
.LCPI2_20:
	.byte	109
	.byte	111
	.byte	100
	.byte	101
	.zero	1
	.zero	1
	.zero	1
	.zero	1
	.zero	1
	.zero	1
	.zero	1
	.zero	1
	.zero	1
	.zero	1
	.zero	1
	.zero	1
.LCPI2_21:
	.byte	80
	.byte	111
	.byte	119
	.byte	101
	.byte	114
	.byte	101
	.byte	100
	.byte	32
	.byte	98
	.byte	121
	.byte	32
	.byte	108
	.byte	105
	.byte	98
	.byte	117
	.byte	110
.LCPI2_22:
	.byte	86
	.byte	105
	.byte	101
	.byte	119
	.byte	32
	.byte	116
	.byte	104
	.byte	101
	.byte	32
	.byte	100
	.byte	111
	.byte	99
	.byte	115
	.byte	32
	.byte	97
	.byte	116
.LCPI2_23:
	.byte	58
	.byte	32
	.byte	104
	.byte	116
	.byte	116
	.byte	112
	.byte	115
	.byte	58
	.byte	47
	.byte	47
	.byte	117
	.byte	110
	.byte	102
	.byte	116
	.byte	112
	.byte	46
.LCPI2_24:
	.byte	69
	.byte	120
	.byte	116
	.byte	101
	.byte	110
	.byte	115
	.byte	105
	.byte	111
	.byte	110
	.byte	115
	.byte	32
	.byte	115
	.byte	117
	.byte	112
	.byte	112
	.byte	111
.LCPI2_25:
	.byte	84
	.byte	76
	.byte	83
	.byte	47
	.byte	83
	.byte	83
	.byte	76
	.byte	32
	.byte	110
	.byte	111
	.byte	116
	.byte	32
	.byte	99
	.byte	111
	.byte	110
	.byte	102
.LCPI2_26:
	.byte	121
	.byte	115
	.byte	32
	.byte	105
	.byte	0
	.byte	0
	.byte	0
	.byte	0
	.byte	0
	.byte	0
	.byte	0
	.byte	0
	.byte	0
	.byte	0
	.byte	0
	.byte	0
.LCPI2_27:
	.byte	85
	.byte	84
	.byte	70
	.byte	45
	.byte	0
	.byte	0
	.byte	0
	.byte	0
	.byte	0
	.byte	0
	.byte	0
	.byte	0
	.byte	0
	.byte	0
	.byte	0
	.byte	0
.LCPI2_28:
	.byte	110
	.byte	32
	.byte	85
	.byte	84
	.byte	0
	.byte	0
	.byte	0
	.byte	0
	.byte	0
	.byte	0
	.byte	0
	.byte	0
	.byte	0
	.byte	0
	.byte	0
	.byte	0
.LCPI2_29:
	.byte	56
	.byte	32
	.byte	109
	.byte	111
	.byte	0
	.byte	0
	.byte	0
	.byte	0
	.byte	0
	.byte	0
	.byte	0
	.byte	0
	.byte	0
	.byte	0
	.byte	0
	.byte	0
.LCPI2_30:
	.byte	70
	.byte	45
	.byte	56
	.byte	32
	.byte	0
	.byte	0
	.byte	0
	.byte	0
	.byte	0
	.byte	0
	.byte	0
	.byte	0
	.byte	0
	.byte	0
	.byte	0
	.byte	0
.LCPI2_31:
	.byte	100
	.byte	101
	.byte	32
	.byte	110
	.byte	0
	.byte	0
	.byte	0
	.byte	0
	.byte	0
	.byte	0
	.byte	0
	.byte	0
	.byte	0
	.byte	0
	.byte	0
	.byte	0
.LCPI2_32:
	.byte	109
	.byte	111
	.byte	100
	.byte	101
	.byte	0
	.byte	0
	.byte	0
	.byte	0
	.byte	0
	.byte	0
	.byte	0
	.byte	0
	.byte	0
	.byte	0
	.byte	0
	.byte	0
.LCPI2_33:
	.byte	111
	.byte	116
	.byte	32
	.byte	115
	.byte	0
	.byte	0
	.byte	0
	.byte	0
	.byte	0
	.byte	0
	.byte	0
	.byte	0
	.byte	0
	.byte	0
	.byte	0
	.byte	0
	.section	".text.unftp_control_serve::engine::answer_lines::<#2e66f6333061c70c>","ax",@progbits
	.p2align	4
	.type	"unftp_control_serve::engine::answer_lines::<#2e66f6333061c70c>",@function
"unftp_control_serve::engine::answer_lines::<#2e66f6333061c70c>":
	pushq	%rbp
	pushq	%r15
	pushq	%r14
	pushq	%r13
	pushq	%r12
	pushq	%rbx
	subq	$1528, %rsp
	movq	%rcx, 920(%rsp)
	movq	%rdx, 8(%rsp)
	movq	%rdi, 632(%rsp)
	pxor	%xmm0, %xmm0
	movdqa	%xmm0, 1408(%rsp)
	movdqa	%xmm0, 1392(%rsp)
	movdqa	%xmm0, 1376(%rsp)
	movdqa	%xmm0, 1360(%rsp)
	movdqa	%xmm0, 1344(%rsp)
	movq	$0, 1424(%rsp)
	movdqa	%xmm0, 928(%rsp)
	movdqa	%xmm0, 944(%rsp)
	movdqa	%xmm0, 960(%rsp)
	movdqa	%xmm0, 976(%rsp)
	movdqa	%xmm0, 992(%rsp)
	movq	$0, 1008(%rsp)
	leaq	72(%rsi), %r14
	leaq	88(%rsi), %rax
	movq	%rax, 912(%rsp)
	leaq	8(%rdx), %rbp
	movq	%rsi, 904(%rsp)
	movq	%rbp, 216(%rsp)
	movq	%r14, 24(%rsp)
	.p2align	4
.LBB2_1:
	movzbl	(%r14), %eax
	movq	912(%rsp), %rcx
	movq	$0, (%rcx)
	cmpl	$1, %eax
	je	.LBB2_11
	movl	$11, %r13d
	testl	%eax, %eax
	jne	.LBB2_16
	movq	64(%rsi), %rax
	movq	(%rsi), %r9
	movq	8(%rsi), %r10
	testq	%r10, %r10
	je	.LBB2_18
	xorl	%r8d, %r8d
.LBB2_5:
	rep		bsfq	%r10, %r15
	leaq	1(%r15), %rcx
	subq	%rcx, %r9
	movq	%r9, (%rsi)
	shrq	%cl, %r10
	movq	%r10, 8(%rsi)
	addq	%r8, %r15
	cmpb	$0, 32(%rsi)
	jne	.LBB2_8
	cmpb	$1, 16(%rsi)
	jne	.LBB2_22
	cmpq	%r15, 24(%rsi)
	ja	.LBB2_22
.LBB2_8:
	movb	$1, 36(%rsp)
	movb	$0, 32(%rsi)
	incq	%r15
	je	.LBB2_10
	addq	%r15, %rax
	addq	96(%rsi), %r15
	movq	$-1, %rcx
	cmovaeq	%r15, %rcx
	movq	%rcx, 96(%rsi)
	movq	%rax, 64(%rsi)
.LBB2_10:
	movq	$2, 72(%rsi)
	movq	$0, 80(%rsi)
	jmp	.LBB2_17
	.p2align	4
.LBB2_11:
	movq	80(%rsi), %r15
	movq	40(%rsi), %rbx
	addq	64(%rsi), %rbx
	cmpq	$4, %r15
	ja	.LBB2_23
.LBB2_12:
	movq	%rbx, %rdi
	movq	%r15, %rsi
	callq	"unftp_control_codecs::line_parser::parser::any_verb_len"
.LBB2_13:
	leaq	1(%rax), %rbp
	movq	%r15, %rcx
	subq	%rbp, %rcx
	xorl	%r14d, %r14d
	cmpq	%rax, %r15
	cmoveq	%rax, %rbp
	cmovneq	%rcx, %r14
	addq	%rbx, %rbp
	movb	$43, %r15b
	cmpq	$3, %rax
	jae	.LBB2_31
.LBB2_14:
	pxor	%xmm0, %xmm0
	movdqa	%xmm0, 80(%rsp)
	movq	$0, 96(%rsp)
	testq	%rax, %rax
	jne	.LBB2_105
	leaq	.Lstatic.2(%rip), %r11
	xorl	%edi, %edi
	jmp	.LBB2_108
	.p2align	4
.LBB2_16:
	movb	$1, 36(%rsp)
.LBB2_17:
	movq	$0, 48(%rsp)
	movq	$0, 40(%rsp)
	xorl	%r12d, %r12d
	movq	$0, 56(%rsp)
	movq	$0, 72(%rsp)
	movq	$0, (%rsp)
	xorl	%edx, %edx
	movzbl	(%r14), %eax
	testl	%eax, %eax
	jne	.LBB2_487
	jmp	.LBB2_490
.LBB2_18:
	movq	40(%rsi), %rdx
	movq	48(%rsi), %rcx
	leaq	(%rdx,%rax), %rdi
	movq	%rcx, %rbx
	subq	%rax, %rbx
	movq	%rbx, %r11
	subq	%r9, %r11
	cmpq	$8, %r11
	jae	.LBB2_42
	cmpq	$4, %r11
	jb	.LBB2_58
	movd	(%rdi,%r9), %xmm0
	punpcklbw	%xmm0, %xmm0
	punpcklwd	%xmm0, %xmm0
	pcmpeqb	.LCPI2_0(%rip), %xmm0
	movmskps	%xmm0, %r10d
	testl	%r10d, %r10d
	je	.LBB2_57
	movq	%r9, %r8
	movl	$4, %r9d
	jmp	.LBB2_5
.LBB2_22:
	incq	%r15
	movq	$1, 72(%rsi)
	movq	%r15, 80(%rsi)
	movq	40(%rsi), %rbx
	addq	64(%rsi), %rbx
	cmpq	$4, %r15
	jbe	.LBB2_12
	.p2align	4
.LBB2_23:
	movl	(%rbx), %eax
	movd	%eax, %xmm0
	movdqa	.LCPI2_1(%rip), %xmm1
	pmaxub	%xmm0, %xmm1
	pcmpeqb	%xmm0, %xmm1
	punpcklbw	%xmm1, %xmm1
	punpcklwd	%xmm1, %xmm1
	movmskps	%xmm1, %ecx
	xorl	$15, %ecx
	je	.LBB2_28
	movd	%xmm0, %ecx
	shrl	$24, %ecx
	cmpb	$32, %cl
	ja	.LBB2_12
	movabsq	$4294976512, %rdx
	btq	%rcx, %rdx
	jae	.LBB2_12
	shrl	$16, %eax
	movdqa	.LCPI2_2(%rip), %xmm1
	pminub	%xmm0, %xmm1
	pcmpeqb	%xmm0, %xmm1
	punpcklbw	%xmm1, %xmm1
	pcmpeqd	%xmm0, %xmm0
	pxor	%xmm1, %xmm0
	pshuflw	$80, %xmm0, %xmm0
	pshufd	$80, %xmm0, %xmm0
	movmskpd	%xmm0, %ecx
	cmpl	$3, %ecx
	sete	%cl
	cmpb	$33, %al
	jb	.LBB2_12
	movl	$3, %eax
	testb	%cl, %cl
	jne	.LBB2_30
	jmp	.LBB2_12
.LBB2_28:
	movzbl	4(%rbx), %ecx
	cmpq	$32, %rcx
	ja	.LBB2_55
	movl	$4, %eax
	movabsq	$4294976512, %rdx
	btq	%rcx, %rdx
	jae	.LBB2_55
.LBB2_30:
	leaq	1(%rax), %rcx
	subq	%rcx, %r15
	leaq	(%rbx,%rax), %rbp
	incq	%rbp
	movq	%r15, %r14
.LBB2_31:
	cmpq	$3, %rax
	jne	.LBB2_34
	movq	%rax, (%rsp)
	movzwl	(%rbx), %r12d
	movzbl	2(%rbx), %r15d
	movl	%r15d, %edi
	shll	$16, %edi
	orl	%r12d, %edi
	callq	"unftp_control_defs::verb::verb_of"
	cmpb	$1, %al
	je	.LBB2_33
	cmpb	$96, %r15b
	ja	.LBB2_48
	movzwl	%r12w, %eax
	cmpl	$24831, %eax
	ja	.LBB2_48
	cmpb	$97, %r12b
	jae	.LBB2_48
	movl	$3, %eax
	movb	$43, %r15b
	jmp	.LBB2_104
.LBB2_34:
	movb	$43, %r15b
	cmpq	$4, %rax
	ja	.LBB2_104
	movzbl	3(%rbx), %r13d
	testl	%r13d, %r13d
	je	.LBB2_49
	movq	%rax, (%rsp)
	movzwl	(%rbx), %r12d
	movzbl	2(%rbx), %eax
	movl	%r13d, %edi
	shll	$24, %edi
	movq	%rax, 48(%rsp)
	shll	$16, %eax
	orl	%r12d, %edi
	orl	%eax, %edi
	callq	"unftp_control_defs::verb::verb_of"
	cmpb	$1, %al
	jne	.LBB2_50
.LBB2_33:
	movl	%edx, %r10d
.LBB2_63:
	leaq	.Lstatic.2(%rip), %r11
	xorl	%edi, %edi
	movzbl	%r10b, %eax
	leaq	.LJTI2_0(%rip), %rcx
	movslq	(%rcx,%rax,4), %rax
	addq	%rcx, %rax
	movq	8(%rsp), %r9
	jmpq	*%rax
.LBB2_64:
	movb	$3, %r13b
	xorl	%edi, %edi
	jmp	.LBB2_109
.LBB2_42:
	cmpq	$32, %r11
	jb	.LBB2_45
	.p2align	4
.LBB2_43:
	movdqu	(%rdi,%r9), %xmm0
	movdqu	16(%rdi,%r9), %xmm1
	movdqa	.LCPI2_0(%rip), %xmm2
	pcmpeqb	%xmm2, %xmm0
	pmovmskb	%xmm0, %r10d
	pcmpeqb	%xmm2, %xmm1
	pmovmskb	%xmm1, %r8d
	shll	$16, %r8d
	orl	%r10d, %r8d
	jne	.LBB2_56
	addq	$32, %r9
	addq	$-32, %r11
	cmpq	$31, %r11
	ja	.LBB2_43
.LBB2_45:
	cmpq	$16, %r11
	jb	.LBB2_70
	movdqu	(%rdi,%r9), %xmm0
	pcmpeqb	.LCPI2_0(%rip), %xmm0
	pmovmskb	%xmm0, %r10d
	testl	%r10d, %r10d
	je	.LBB2_69
	movq	%r9, %r8
	movl	$16, %r9d
	jmp	.LBB2_5
.LBB2_48:
	movl	%r12d, %ecx
	shrl	$8, %ecx
	leal	-97(%r12), %eax
	leal	-32(%r12), %edx
	cmpb	$26, %al
	movzbl	%r12b, %esi
	movzbl	%dl, %eax
	cmovael	%esi, %eax
	leal	-97(%rcx), %edx
	leal	-32(%rcx), %esi
	cmpb	$26, %dl
	movzbl	%cl, %ecx
	movzbl	%sil, %edx
	cmovael	%ecx, %edx
	leal	-97(%r15), %ecx
	leal	-32(%r15), %esi
	cmpb	$26, %cl
	movzbl	%r15b, %ecx
	movzbl	%sil, %esi
	cmovael	%ecx, %esi
	movzbl	%sil, %ecx
	shll	$16, %ecx
	movzbl	%dl, %edx
	shll	$8, %edx
	orl	%ecx, %edx
	movzbl	%al, %edi
	orl	%edx, %edi
	jmp	.LBB2_62
.LBB2_65:
	movb	$1, %r13b
	xorl	%edi, %edi
	jmp	.LBB2_109
.LBB2_50:
	movzwl	%r12w, %ecx
	cmpb	$96, %r13b
	movq	48(%rsp), %rdi
	ja	.LBB2_61
	cmpb	$96, %dil
	ja	.LBB2_61
	cmpl	$24831, %ecx
	ja	.LBB2_61
	cmpb	$97, %r12b
	jae	.LBB2_61
.LBB2_49:
	movl	$4, %eax
	jmp	.LBB2_104
.LBB2_55:
	leaq	4(%rbx), %rdi
	leaq	-4(%r15), %rsi
	callq	"unftp_control_codecs::line_parser::parser::word_len"
	addq	$4, %rax
	jmp	.LBB2_13
.LBB2_66:
	movb	$6, %r13b
	xorl	%edi, %edi
	jmp	.LBB2_109
.LBB2_56:
	movl	%r8d, %r10d
	movq	%r9, %r8
	movl	$32, %r9d
	jmp	.LBB2_5
.LBB2_67:
	movq	$0, 48(%rsp)
	jmp	.LBB2_187
.LBB2_57:
	addq	$4, %r9
.LBB2_58:
	movq	%r9, %r8
	cmpq	%rbx, %r9
	jae	.LBB2_1496
	.p2align	4
.LBB2_59:
	cmpb	$10, (%rdi,%r8)
	je	.LBB2_82
	incq	%r8
	cmpq	%rbx, %r8
	jb	.LBB2_59
	jmp	.LBB2_1495
.LBB2_61:
	shrl	$8, %ecx
	leal	-97(%r12), %eax
	leal	-32(%r12), %edx
	cmpb	$26, %al
	movzbl	%r12b, %esi
	movzbl	%dl, %eax
	cmovael	%esi, %eax
	leal	-97(%rcx), %edx
	leal	-32(%rcx), %esi
	cmpb	$26, %dl
	movzbl	%sil, %edx
	cmovael	%ecx, %edx
	leal	-97(%rdi), %ecx
	leal	-32(%rdi), %esi
	cmpb	$26, %cl
	movzbl	%dil, %ecx
	movzbl	%sil, %esi
	cmovael	%ecx, %esi
	leal	-97(%r13), %ecx
	leal	-32(%r13), %edi
	cmpb	$26, %cl
	movzbl	%dil, %ecx
	cmovael	%r13d, %ecx
	shll	$24, %ecx
	movzbl	%sil, %esi
	shll	$16, %esi
	orl	%ecx, %esi
	movzbl	%dl, %ecx
	shll	$8, %ecx
	orl	%esi, %ecx
	movzbl	%al, %edi
	orl	%ecx, %edi
.LBB2_62:
	callq	"unftp_control_defs::verb::verb_of"
	movl	%edx, %r10d
	movb	$43, %r15b
	cmpb	$1, %al
	movq	(%rsp), %rax
	je	.LBB2_63
.LBB2_104:
	pxor	%xmm0, %xmm0
	movdqa	%xmm0, 80(%rsp)
	movq	$0, 96(%rsp)
.LBB2_105:
	leaq	80(%rsp), %rdi
	movq	%rbx, %rsi
	movq	%rax, %rdx
	callq	"core::str::utf8::from_utf8"
	cmpb	$0, 80(%rsp)
	je	.LBB2_107
	movb	$5, %sil
	movb	$1, 36(%rsp)
	movl	$1, %edi
	movq	$0, 72(%rsp)
	movq	$0, (%rsp)
	movq	$0, 56(%rsp)
	xorl	%r10d, %r10d
	movq	$0, 40(%rsp)
	xorl	%r15d, %r15d
	movb	$1, %r12b
	jmp	.LBB2_483
.LBB2_107:
	movq	88(%rsp), %r11
	movq	96(%rsp), %rdi
.LBB2_108:
	movq	8(%rsp), %r9
	movb	$4, %r13b
	movl	%r15d, %r10d
.LBB2_109:
	pxor	%xmm0, %xmm0
	movdqa	%xmm0, 96(%rsp)
	movdqa	%xmm0, 80(%rsp)
	testq	%r14, %r14
	je	.LBB2_122
	cmpq	$1, %r14
	je	.LBB2_121
	cmpq	$2, %r14
	ja	.LBB2_121
	movzbl	(%rbp), %eax
	cmpl	$10, %eax
	je	.LBB2_122
	cmpl	$13, %eax
	jne	.LBB2_115
	cmpb	$10, 1(%rbp)
	je	.LBB2_122
.LBB2_115:
	xorl	%r15d, %r15d
	movq	%r14, %rax
	subq	$2, %rax
	cmovaeq	%rax, %r15
	movq	%r14, %rax
	subq	%r15, %rax
	cmpq	$2, %rax
	jne	.LBB2_150
	cmpb	$13, (%rbp,%r15)
	jne	.LBB2_150
	cmpb	$10, 1(%rbp,%r15)
	jne	.LBB2_150
	cmpq	$3, %r15
	ja	.LBB2_125
	cmpq	$3, %r14
	jae	.LBB2_129
.LBB2_120:
	movq	%rdi, 48(%rsp)
	xorl	%eax, %eax
	movzbl	%al, %edx
	movzbl	%r13b, %eax
	decl	%eax
	leaq	.LJTI2_1(%rip), %rcx
	movslq	(%rcx,%rax,4), %rax
	addq	%rcx, %rax
	jmpq	*%rax
.LBB2_121:
	cmpb	$10, (%rbp)
	jne	.LBB2_115
.LBB2_122:
	movq	%rdi, 48(%rsp)
	leaq	.Lstatic.2(%rip), %rbp
	xorl	%r15d, %r15d
	movzbl	%r15b, %edx
	movzbl	%r13b, %eax
	decl	%eax
	leaq	.LJTI2_1(%rip), %rcx
	movslq	(%rcx,%rax,4), %rax
	addq	%rcx, %rax
	jmpq	*%rax
.LBB2_123:
	movq	$0, (%rsp)
	xorl	%edx, %edx
	xorl	%r12d, %r12d
	testq	%r15, %r15
	je	.LBB2_188
	movb	$7, %sil
	movl	$1, %edi
	movb	$1, 36(%rsp)
	movq	$0, 72(%rsp)
	movq	$0, 56(%rsp)
	xorl	%r10d, %r10d
	movq	$0, 40(%rsp)
	xorl	%r15d, %r15d
	xorl	%r11d, %r11d
	movq	24(%rsp), %r14
	movq	$0, (%rsp)
	jmp	.LBB2_486
.LBB2_68:
	movb	$2, %r13b
	jmp	.LBB2_109
.LBB2_69:
	addq	$16, %r9
	addq	$-16, %r11
.LBB2_70:
	movq	%r9, %r8
	cmpq	$8, %r11
	jb	.LBB2_75
	movq	(%rdi,%r8), %xmm0
	pshufd	$68, %xmm0, %xmm0
	pcmpeqb	.LCPI2_0(%rip), %xmm0
	pmovmskb	%xmm0, %r9d
	testb	%r9b, %r9b
	je	.LBB2_74
	movzbl	%r9b, %r10d
	movl	$8, %r9d
	jmp	.LBB2_5
.LBB2_73:
	movb	$4, %r13b
	xorl	%edi, %edi
	jmp	.LBB2_109
.LBB2_74:
	addq	$8, %r8
.LBB2_75:
	movq	%rbx, %r9
	subq	%r8, %r9
	cmpq	$4, %r9
	jb	.LBB2_79
	movd	(%rdi,%r8), %xmm0
	punpcklbw	%xmm0, %xmm0
	punpcklwd	%xmm0, %xmm0
	pcmpeqb	.LCPI2_0(%rip), %xmm0
	movmskps	%xmm0, %r10d
	testl	%r10d, %r10d
	je	.LBB2_78
	movl	$4, %r9d
	jmp	.LBB2_5
.LBB2_125:
	movq	%r15, %rax
	cmpq	$7, %r15
	ja	.LBB2_134
	addq	$-4, %rax
	je	.LBB2_128
	movd	(%rbp), %xmm0
	movdqa	.LCPI2_5(%rip), %xmm1
	pmaxub	%xmm0, %xmm1
	pcmpeqb	%xmm0, %xmm1
	punpcklbw	%xmm1, %xmm1
	punpcklwd	%xmm1, %xmm1
	movmskps	%xmm1, %ecx
	xorl	$15, %ecx
	jne	.LBB2_150
.LBB2_128:
	movd	(%rbp,%rax), %xmm0
	movdqa	.LCPI2_5(%rip), %xmm1
	pmaxub	%xmm0, %xmm1
	pcmpeqb	%xmm0, %xmm1
	punpcklbw	%xmm1, %xmm1
	punpcklwd	%xmm1, %xmm1
	movmskps	%xmm1, %eax
	xorl	$15, %eax
	jne	.LBB2_150
	jmp	.LBB2_120
.LBB2_78:
	addq	$4, %r8
.LBB2_79:
	cmpq	%rbx, %r8
	jae	.LBB2_1496
	.p2align	4
.LBB2_80:
	cmpb	$10, (%rdi,%r8)
	je	.LBB2_82
	incq	%r8
	cmpq	%rbx, %r8
	jb	.LBB2_80
	jmp	.LBB2_1495
.LBB2_82:
	movl	$1, %r9d
	movl	$1, %r10d
	jmp	.LBB2_5
.LBB2_129:
	cmpb	$14, (%rbp)
	jb	.LBB2_150
	cmpq	$1, %r15
	je	.LBB2_120
	cmpb	$14, 1(%rbp)
	jb	.LBB2_150
	cmpq	$2, %r15
	je	.LBB2_120
	cmpb	$14, 2(%rbp)
	jae	.LBB2_120
	jmp	.LBB2_150
.LBB2_134:
	cmpq	$15, %r15
	ja	.LBB2_138
	addq	$-8, %rax
	je	.LBB2_137
	movq	(%rbp), %xmm0
	movdqa	.LCPI2_4(%rip), %xmm1
	pmaxub	%xmm0, %xmm1
	pcmpeqb	%xmm0, %xmm1
	pmovmskb	%xmm1, %ecx
	xorb	$-1, %cl
	jne	.LBB2_150
.LBB2_137:
	movq	(%rbp,%rax), %xmm0
	movdqa	.LCPI2_4(%rip), %xmm1
	pmaxub	%xmm0, %xmm1
	pcmpeqb	%xmm0, %xmm1
	pmovmskb	%xmm1, %eax
	xorb	$-1, %al
	jne	.LBB2_150
	jmp	.LBB2_120
.LBB2_83:
	cmpq	$4, %r14
	ja	.LBB2_88
.LBB2_84:
	movq	%r11, %rbx
	movq	%rbp, %rdi
	movq	%r14, %rsi
	callq	"unftp_control_codecs::line_parser::parser::any_verb_len"
.LBB2_85:
	leaq	1(%rax), %rcx
	movq	%r14, %rdx
	subq	%rcx, %rdx
	cmpq	%rax, %r14
	cmoveq	%rax, %rcx
	movl	$0, %r14d
	cmovneq	%rdx, %r14
	addq	%rbp, %rcx
	movb	$42, %r15b
	cmpq	$3, %rax
	jne	.LBB2_100
	movzbl	(%rbp), %eax
	movq	8(%rsp), %r9
	movq	%rbx, %r11
	jmp	.LBB2_95
.LBB2_87:
	movb	$5, %r13b
	xorl	%edi, %edi
	jmp	.LBB2_109
.LBB2_138:
	cmpq	$63, %r15
	ja	.LBB2_144
	addq	$-16, %rax
	je	.LBB2_143
	xorl	%ecx, %ecx
.LBB2_141:
	movdqu	(%rbp,%rcx), %xmm0
	movdqa	.LCPI2_3(%rip), %xmm1
	pminub	%xmm0, %xmm1
	pcmpeqb	%xmm0, %xmm1
	pmovmskb	%xmm1, %edx
	testl	%edx, %edx
	jne	.LBB2_150
	addq	$16, %rcx
	cmpq	%rax, %rcx
	jb	.LBB2_141
.LBB2_143:
	movdqu	(%rbp,%rax), %xmm0
	movdqa	.LCPI2_3(%rip), %xmm1
	pminub	%xmm0, %xmm1
	pcmpeqb	%xmm0, %xmm1
	pmovmskb	%xmm1, %eax
	jmp	.LBB2_149
.LBB2_88:
	movl	(%rbp), %eax
	movd	%eax, %xmm0
	movdqa	.LCPI2_1(%rip), %xmm1
	pmaxub	%xmm0, %xmm1
	pcmpeqb	%xmm0, %xmm1
	punpcklbw	%xmm1, %xmm1
	punpcklwd	%xmm1, %xmm1
	movmskps	%xmm1, %ecx
	xorl	$15, %ecx
	je	.LBB2_101
	movd	%xmm0, %ecx
	shrl	$24, %ecx
	cmpb	$32, %cl
	ja	.LBB2_84
	movabsq	$4294976512, %rdx
	btq	%rcx, %rdx
	jae	.LBB2_84
	movl	%eax, %ecx
	shrl	$16, %ecx
	cmpb	$33, %cl
	jb	.LBB2_84
	cmpb	$33, %al
	jb	.LBB2_84
	movl	%eax, %ecx
	shrl	$8, %ecx
	cmpb	$33, %cl
	jb	.LBB2_84
	addq	$-4, %r14
	leaq	4(%rbp), %rcx
.LBB2_95:
	leal	-65(%rax), %edx
	leal	32(%rax), %esi
	cmpb	$26, %dl
	movzbl	%al, %eax
	movzbl	%sil, %edx
	cmovael	%eax, %edx
	movl	$3, %eax
	movb	$42, %r15b
	cmpb	$109, %dl
	jne	.LBB2_99
	movzbl	1(%rbp), %edx
	leal	-65(%rdx), %esi
	leal	32(%rdx), %edi
	cmpb	$26, %sil
	movzbl	%dil, %esi
	cmovael	%edx, %esi
	cmpb	$100, %sil
	jne	.LBB2_99
	movzbl	2(%rbp), %edx
	leal	-65(%rdx), %esi
	leal	32(%rdx), %edi
	cmpb	$26, %sil
	movzbl	%dil, %esi
	cmovael	%edx, %esi
	cmpb	$53, %sil
	jne	.LBB2_99
	movb	$3, %r13b
	movb	$41, %r10b
	xorl	%edi, %edi
	movq	%rcx, %rbp
	jmp	.LBB2_109
.LBB2_99:
	movq	%rbp, %rbx
	movq	%rcx, %rbp
	jmp	.LBB2_104
.LBB2_100:
	movq	%rbp, %rbx
	movq	%rcx, %rbp
	jmp	.LBB2_14
.LBB2_144:
	addq	$-64, %rax
	je	.LBB2_148
	xorl	%ecx, %ecx
.LBB2_146:
	movdqu	(%rbp,%rcx), %xmm0
	movdqu	16(%rbp,%rcx), %xmm1
	movdqu	32(%rbp,%rcx), %xmm2
	movdqu	48(%rbp,%rcx), %xmm3
	movdqa	.LCPI2_3(%rip), %xmm4
	movdqa	%xmm3, %xmm5
	pminub	%xmm4, %xmm5
	pcmpeqb	%xmm3, %xmm5
	movdqa	%xmm2, %xmm3
	pminub	%xmm4, %xmm3
	pcmpeqb	%xmm2, %xmm3
	por	%xmm5, %xmm3
	movdqa	%xmm0, %xmm2
	pminub	%xmm4, %xmm2
	pcmpeqb	%xmm0, %xmm2
	pminub	%xmm1, %xmm4
	pcmpeqb	%xmm1, %xmm4
	por	%xmm2, %xmm4
	por	%xmm3, %xmm4
	pmovmskb	%xmm4, %edx
	testl	%edx, %edx
	jne	.LBB2_150
	addq	$64, %rcx
	cmpq	%rax, %rcx
	jb	.LBB2_146
.LBB2_148:
	movdqu	(%rbp,%rax), %xmm0
	movdqu	16(%rbp,%rax), %xmm1
	movdqu	32(%rbp,%rax), %xmm2
	movdqu	48(%rbp,%rax), %xmm3
	movdqa	.LCPI2_3(%rip), %xmm4
	movdqa	%xmm3, %xmm5
	pminub	%xmm4, %xmm5
	pcmpeqb	%xmm3, %xmm5
	movdqa	%xmm2, %xmm3
	pminub	%xmm4, %xmm3
	pcmpeqb	%xmm2, %xmm3
	por	%xmm5, %xmm3
	movdqa	%xmm0, %xmm2
	pminub	%xmm4, %xmm2
	pcmpeqb	%xmm0, %xmm2
	pminub	%xmm1, %xmm4
	pcmpeqb	%xmm1, %xmm4
	por	%xmm2, %xmm4
	por	%xmm3, %xmm4
	pmovmskb	%xmm4, %eax
.LBB2_149:
	testl	%eax, %eax
	je	.LBB2_120
.LBB2_150:
	movq	%rdi, %r15
	movq	%r11, %r12
	movl	%r10d, %ebx
	leaq	80(%rsp), %rdi
	movq	%rbp, %rsi
	movq	%r14, %rdx
	callq	"unftp_control_codecs::line_parser::value::some_value"
	cmpb	$1, 80(%rsp)
	jne	.LBB2_153
	movq	%r15, 48(%rsp)
	movq	96(%rsp), %rbp
	movq	104(%rsp), %r15
	movzbl	88(%rsp), %edx
	movzbl	%r13b, %eax
	decl	%eax
	leaq	.LJTI2_1(%rip), %rcx
	movslq	(%rcx,%rax,4), %rax
	addq	%rcx, %rax
	movq	8(%rsp), %r9
	movl	%ebx, %r10d
	movq	%r12, %r11
	jmpq	*%rax
.LBB2_152:
	testq	%r15, %r15
	setne	%r14b
	cmoveq	%r15, %rbp
	cmoveq	%r15, %rdx
	movq	%rdx, (%rsp)
	xorl	%eax, %eax
	movzbl	%r10b, %ecx
	leaq	.LJTI2_2(%rip), %rdx
	movslq	(%rdx,%rcx,4), %rcx
	addq	%rdx, %rcx
	movq	%rbp, %rbx
	xorl	%r9d, %r9d
	xorl	%r8d, %r8d
	jmpq	*%rcx
.LBB2_153:
	movq	$0, (%rsp)
	movb	$7, %sil
	movb	$2, %r12b
	movl	$1, %edi
	movb	$1, 36(%rsp)
	movq	$0, 72(%rsp)
	jmp	.LBB2_482
.LBB2_154:
	movq	%rdx, (%rsp)
	testq	%r15, %r15
	je	.LBB2_186
	leaq	-1(%r15), %rcx
	leaq	-2(%r15), %rdx
	xorl	%eax, %eax
	xorl	%esi, %esi
	jmp	.LBB2_158
	.p2align	4
.LBB2_156:
	cmpb	$32, %dil
	setne	%sil
.LBB2_157:
	incq	%rax
	cmpq	%rax, %r15
	je	.LBB2_182
.LBB2_158:
	movzbl	(%rbp,%rax), %edi
	testb	$1, %sil
	jne	.LBB2_156
	cmpb	$45, %dil
	jne	.LBB2_183
	cmpq	%rax, %rdx
	jne	.LBB2_162
	movb	$1, %sil
	cmpb	$45, 1(%rbp,%rax)
	jne	.LBB2_157
	jmp	.LBB2_182
	.p2align	4
.LBB2_162:
	cmpq	%rax, %rcx
	je	.LBB2_182
	cmpb	$45, 1(%rbp,%rax)
	movb	$1, %sil
	jne	.LBB2_157
	cmpb	$32, 2(%rbp,%rax)
	jne	.LBB2_157
	addq	$3, %rax
	subq	%rax, %r15
	jne	.LBB2_184
	jmp	.LBB2_187
.LBB2_166:
	movq	%rdx, (%rsp)
	testq	%r15, %r15
	je	.LBB2_197
	movb	$3, %r14b
	cmpq	$0, (%rsp)
	jne	.LBB2_185
	movq	%r11, %r12
	movl	%r10d, %ebx
	pxor	%xmm0, %xmm0
	movdqa	%xmm0, 80(%rsp)
	movq	$0, 96(%rsp)
	movdqa	%xmm0, 320(%rsp)
	movq	$0, 336(%rsp)
	movdqa	%xmm0, 512(%rsp)
	cmpq	$128, %r15
	jb	.LBB2_214
	leaq	80(%rsp), %rdi
	movq	%rbp, %rsi
	movq	%r15, %rdx
	callq	"unftp_control_message::utf8::long_text"
	movq	88(%rsp), %rax
	movq	%rax, (%rsp)
	movq	96(%rsp), %rcx
	movzbl	80(%rsp), %eax
	movl	%ebx, %r10d
	movq	%rcx, %rbx
	movq	%r12, %r11
	cmpb	$1, %al
	je	.LBB2_228
	jmp	.LBB2_235
.LBB2_170:
	movq	%rdx, (%rsp)
	testq	%r15, %r15
	je	.LBB2_187
	movb	$3, %r14b
	cmpq	$0, (%rsp)
	jne	.LBB2_185
	movq	%r11, %r12
	movl	%r10d, %ebx
	pxor	%xmm0, %xmm0
	movdqa	%xmm0, 80(%rsp)
	movq	$0, 96(%rsp)
	movdqa	%xmm0, 320(%rsp)
	movq	$0, 336(%rsp)
	movdqa	%xmm0, 512(%rsp)
	cmpq	$128, %r15
	jb	.LBB2_216
	leaq	80(%rsp), %rdi
	movq	%rbp, %rsi
	movq	%r15, %rdx
	callq	"unftp_control_message::utf8::long_text"
	movq	88(%rsp), %rax
	movq	%rax, (%rsp)
	movq	96(%rsp), %rcx
	movzbl	80(%rsp), %eax
	movl	%ebx, %r10d
	movq	%rcx, %rbx
	movq	%r12, %r11
	cmpb	$1, %al
	jne	.LBB2_235
	jmp	.LBB2_231
.LBB2_174:
	pxor	%xmm0, %xmm0
	movdqa	%xmm0, 336(%rsp)
	movdqa	%xmm0, 320(%rsp)
	movq	$0, 352(%rsp)
	testq	%rdx, %rdx
	je	.LBB2_198
	movdqa	%xmm0, 96(%rsp)
	movdqa	%xmm0, 80(%rsp)
	movq	$0, 112(%rsp)
	cmpb	$34, %r10b
	jne	.LBB2_199
	movdqa	%xmm0, 512(%rsp)
	movdqu	%xmm0, 524(%rsp)
	xorl	%r14d, %r14d
	movq	%rbp, %rax
	movq	%r15, %rcx
	jmp	.LBB2_178
	.p2align	4
.LBB2_177:
	addq	%rdx, %rax
	subq	%rdx, %rcx
	incq	%r14
.LBB2_178:
	movq	%rcx, %rdx
	cmpq	$1, %rcx
	je	.LBB2_177
	testq	%rcx, %rcx
	je	.LBB2_200
	movl	$1, %edx
	cmpb	$13, (%rax)
	jne	.LBB2_177
	xorl	%edx, %edx
	cmpb	$1, 1(%rax)
	adcq	$1, %rdx
	jmp	.LBB2_177
.LBB2_182:
	movq	%r15, %rax
.LBB2_183:
	subq	%rax, %r15
	je	.LBB2_187
.LBB2_184:
	addq	%rax, %rbp
	movb	$3, %r14b
	cmpq	$0, (%rsp)
	je	.LBB2_202
.LBB2_185:
	xorl	%r9d, %r9d
	movq	%rbp, %rbx
	jmp	.LBB2_190
.LBB2_186:
	xorl	%eax, %eax
	subq	%rax, %r15
	jne	.LBB2_184
.LBB2_187:
	movq	$0, (%rsp)
.LBB2_188:
	xorl	%ebx, %ebx
	xorl	%r15d, %r15d
	xorl	%r14d, %r14d
.LBB2_189:
	xorl	%r9d, %r9d
.LBB2_190:
	xorl	%eax, %eax
	xorl	%r8d, %r8d
.LBB2_191:
	movzbl	%r10b, %ecx
	leaq	.LJTI2_2(%rip), %rdx
	movslq	(%rdx,%rcx,4), %rcx
	addq	%rdx, %rcx
	jmpq	*%rcx
.LBB2_192:
	movb	$1, 36(%rsp)
	movq	$0, (%rsp)
	xorl	%edx, %edx
	xorl	%r12d, %r12d
	testb	%r14b, %r14b
	je	.LBB2_196
	movb	$7, %sil
	movl	$1, %edi
.LBB2_194:
	movq	$0, 72(%rsp)
.LBB2_195:
	movq	$0, 56(%rsp)
	xorl	%r10d, %r10d
	movq	$0, 40(%rsp)
	xorl	%r15d, %r15d
	jmp	.LBB2_484
.LBB2_196:
	movb	%r10b, 64(%rsp)
	movq	$0, 48(%rsp)
	xorl	%r8d, %r8d
	xorl	%eax, %eax
	xorl	%r13d, %r13d
	xorl	%ebp, %ebp
	xorl	%ecx, %ecx
	xorl	%ebx, %ebx
	movq	8(%rsp), %r9
	movq	24(%rsp), %r14
	jmp	.LBB2_1261
.LBB2_197:
	movb	$7, %sil
	movl	$1, %edi
	movb	$1, 36(%rsp)
	movq	$0, (%rsp)
	movq	$0, 72(%rsp)
	movq	$0, 56(%rsp)
	xorl	%r10d, %r10d
	movq	$0, 40(%rsp)
	xorl	%r15d, %r15d
	xorl	%r12d, %r12d
	xorl	%edx, %edx
	xorl	%r11d, %r11d
	jmp	.LBB2_485
.LBB2_198:
	movl	%r10d, %ebx
	movzbl	%r10b, %esi
	leaq	320(%rsp), %rdi
	movq	%rbp, %rdx
	movq	%r15, %rcx
	movq	%r11, %r14
	callq	"unftp_control_codecs::line_parser::typed::typed_bytes"
	movq	%r14, %r11
	movzbl	320(%rsp), %ecx
	movzbl	321(%rsp), %r12d
	movzbl	328(%rsp), %r14d
	movzbl	329(%rsp), %r9d
	movzbl	330(%rsp), %eax
	movzbl	331(%rsp), %r8d
	testb	%cl, %cl
	jne	.LBB2_480
	jmp	.LBB2_583
.LBB2_199:
	movl	%r10d, %ebx
	movzbl	%r10b, %esi
	leaq	80(%rsp), %rdi
	movq	%rbp, %rdx
	movq	%r15, %rcx
	movq	%r11, %r14
	callq	"unftp_control_codecs::line_parser::typed::typed_bytes"
	movq	%r14, %r11
	movzbl	80(%rsp), %ecx
	movzbl	81(%rsp), %r12d
	movzbl	88(%rsp), %r14d
	movzbl	89(%rsp), %r9d
	movzbl	90(%rsp), %eax
	movzbl	91(%rsp), %r8d
	jmp	.LBB2_479
.LBB2_200:
	cmpq	$4, %r14
	jb	.LBB2_204
	pxor	%xmm0, %xmm0
	leaq	96(%rsp), %rax
	movdqu	%xmm0, (%rax)
	movq	$0, 16(%rax)
	movb	$1, %cl
	xorl	%eax, %eax
	xorl	%r9d, %r9d
	xorl	%r14d, %r14d
	xorl	%r12d, %r12d
	jmp	.LBB2_478
.LBB2_202:
	movq	%r11, %r12
	movl	%r10d, %ebx
	pxor	%xmm0, %xmm0
	movdqa	%xmm0, 80(%rsp)
	movq	$0, 96(%rsp)
	movdqa	%xmm0, 320(%rsp)
	movq	$0, 336(%rsp)
	movdqa	%xmm0, 512(%rsp)
	cmpq	$128, %r15
	jb	.LBB2_212
	leaq	80(%rsp), %rdi
	movq	%rbp, %rsi
	movq	%r15, %rdx
	callq	"unftp_control_message::utf8::long_text"
	movq	88(%rsp), %rax
	movq	%rax, (%rsp)
	movq	96(%rsp), %rcx
	movzbl	80(%rsp), %eax
	movl	%ebx, %r10d
	movq	%rcx, %rbx
	movq	%r12, %r11
	cmpb	$1, %al
	jne	.LBB2_235
	jmp	.LBB2_225
.LBB2_204:
	movb	$0, 226(%rsp)
	movw	$0, 224(%rsp)
	testq	%r15, %r15
	je	.LBB2_210
	leaq	224(%rsp), %rax
	jmp	.LBB2_207
	.p2align	4
.LBB2_206:
	addq	%rcx, %rbp
	incq	%rax
	subq	%rcx, %r15
	je	.LBB2_210
.LBB2_207:
	movzbl	(%rbp), %edx
	movb	%dl, (%rax)
	movl	$1, %ecx
	cmpq	$1, %r15
	je	.LBB2_206
	cmpb	$13, %dl
	jne	.LBB2_206
	xorl	%ecx, %ecx
	cmpb	$1, 1(%rbp)
	adcq	$1, %rcx
	jmp	.LBB2_206
.LBB2_210:
	movq	%r11, %r15
	movl	%r10d, %ebx
	pxor	%xmm0, %xmm0
	movdqa	%xmm0, 656(%rsp)
	movq	$0, 672(%rsp)
	leaq	656(%rsp), %rdi
	leaq	224(%rsp), %rsi
	movq	%r14, %rdx
	callq	"core::str::utf8::from_utf8"
	cmpb	$0, 656(%rsp)
	je	.LBB2_218
	leaq	516(%rsp), %rsi
	pxor	%xmm0, %xmm0
	movdqu	%xmm0, (%rsi)
	movq	$0, 16(%rsi)
	movb	$1, %cl
	xorl	%r14d, %r14d
	movb	$1, %r12b
	xorl	%r9d, %r9d
	xorl	%eax, %eax
	movl	%ebx, %r10d
	movq	%r15, %r11
	jmp	.LBB2_477
.LBB2_212:
	leaq	320(%rsp), %rdi
	movq	%rbp, %rsi
	movq	%r15, %rdx
	callq	"core::str::utf8::from_utf8"
	cmpb	$0, 320(%rsp)
	je	.LBB2_223
	xorl	%eax, %eax
	jmp	.LBB2_224
.LBB2_214:
	leaq	320(%rsp), %rdi
	movq	%rbp, %rsi
	movq	%r15, %rdx
	callq	"core::str::utf8::from_utf8"
	cmpb	$0, 320(%rsp)
	je	.LBB2_226
	xorl	%eax, %eax
	jmp	.LBB2_227
.LBB2_216:
	leaq	320(%rsp), %rdi
	movq	%rbp, %rsi
	movq	%r15, %rdx
	callq	"core::str::utf8::from_utf8"
	cmpb	$0, 320(%rsp)
	je	.LBB2_229
	xorl	%eax, %eax
	jmp	.LBB2_230
.LBB2_218:
	cmpq	$3, %r14
	leaq	516(%rsp), %rsi
	movl	%ebx, %r10d
	movq	%r15, %r11
	jne	.LBB2_476
	movzbl	224(%rsp), %ecx
	leal	-65(%rcx), %eax
	leal	32(%rcx), %edx
	cmpb	$26, %al
	movzbl	%dl, %eax
	cmovael	%ecx, %eax
	cmpb	$115, %al
	je	.LBB2_472
	movzbl	%al, %eax
	cmpl	$116, %eax
	jne	.LBB2_476
	movzbl	225(%rsp), %eax
	leal	-65(%rax), %ecx
	leal	32(%rax), %edx
	cmpb	$26, %cl
	movzbl	%dl, %ecx
	cmovael	%eax, %ecx
	cmpb	$108, %cl
	jne	.LBB2_476
	movzbl	226(%rsp), %eax
	leal	-65(%rax), %ecx
	leal	32(%rax), %edx
	cmpb	$26, %cl
	movzbl	%dl, %ecx
	cmovael	%eax, %ecx
	movb	$1, %al
	cmpb	$115, %cl
	je	.LBB2_475
	jmp	.LBB2_476
.LBB2_223:
	leaq	336(%rsp), %rax
	movdqu	-8(%rax), %xmm0
	movdqa	%xmm0, 512(%rsp)
	movb	$1, %al
.LBB2_224:
	movl	%ebx, %r10d
	movdqa	512(%rsp), %xmm0
	leaq	96(%rsp), %rcx
	movdqu	%xmm0, -8(%rcx)
	movq	88(%rsp), %rcx
	movq	%rcx, (%rsp)
	movq	96(%rsp), %rbx
	movq	%r12, %r11
	cmpb	$1, %al
	jne	.LBB2_235
.LBB2_225:
	movb	$2, %r14b
	xorl	%r15d, %r15d
	movzbl	%r10b, %eax
	leaq	.LJTI2_2(%rip), %rcx
	movslq	(%rcx,%rax,4), %rdx
	addq	%rcx, %rdx
	xorl	%eax, %eax
	xorl	%r9d, %r9d
	xorl	%r8d, %r8d
	jmpq	*%rdx
.LBB2_226:
	leaq	336(%rsp), %rax
	movdqu	-8(%rax), %xmm0
	movdqa	%xmm0, 512(%rsp)
	movl	$1, %eax
.LBB2_227:
	movl	%ebx, %r10d
	movq	%rax, 80(%rsp)
	movdqa	512(%rsp), %xmm0
	leaq	96(%rsp), %rcx
	movdqu	%xmm0, -8(%rcx)
	movq	88(%rsp), %rcx
	movq	%rcx, (%rsp)
	movq	96(%rsp), %rbx
	movq	%r12, %r11
	cmpb	$1, %al
	jne	.LBB2_235
.LBB2_228:
	movb	$2, %r14b
	xorl	%r15d, %r15d
	movzbl	%r10b, %eax
	leaq	.LJTI2_2(%rip), %rcx
	movslq	(%rcx,%rax,4), %rdx
	addq	%rcx, %rdx
	xorl	%eax, %eax
	xorl	%r9d, %r9d
	xorl	%r8d, %r8d
	jmpq	*%rdx
.LBB2_229:
	leaq	336(%rsp), %rax
	movdqu	-8(%rax), %xmm0
	movdqa	%xmm0, 512(%rsp)
	movl	$1, %eax
.LBB2_230:
	movl	%ebx, %r10d
	movq	%rax, 80(%rsp)
	movdqa	512(%rsp), %xmm0
	leaq	96(%rsp), %rcx
	movdqu	%xmm0, -8(%rcx)
	movq	88(%rsp), %rcx
	movq	%rcx, (%rsp)
	movq	96(%rsp), %rbx
	movq	%r12, %r11
	cmpb	$1, %al
	jne	.LBB2_235
.LBB2_231:
	movb	$2, %r14b
	xorl	%r15d, %r15d
	movzbl	%r10b, %eax
	leaq	.LJTI2_2(%rip), %rcx
	movslq	(%rcx,%rax,4), %rdx
	addq	%rcx, %rdx
	xorl	%eax, %eax
	xorl	%r9d, %r9d
	xorl	%r8d, %r8d
	jmpq	*%rdx
.LBB2_232:
	pxor	%xmm0, %xmm0
	movdqa	%xmm0, 80(%rsp)
	movdqa	%xmm0, 96(%rsp)
	movdqa	%xmm0, 112(%rsp)
	movzbl	%r14b, %edx
	xorl	%r12d, %r12d
	leal	-2(%rdx), %eax
	cmpl	$4, %eax
	jb	.LBB2_480
	testl	%edx, %edx
	movb	%r10b, 64(%rsp)
	jne	.LBB2_416
	leaq	.Lstatic.2(%rip), %rax
	movq	%rdx, %rcx
	xorl	%esi, %esi
	movq	%rdx, %r13
	movq	%rdx, %rbp
	jmp	.LBB2_418
.LBB2_235:
	movq	$0, (%rsp)
	movq	%rbp, %rbx
	jmp	.LBB2_189
.LBB2_236:
	pxor	%xmm0, %xmm0
	movdqa	%xmm0, 80(%rsp)
	movdqa	%xmm0, 96(%rsp)
	movzbl	%r14b, %edx
	leaq	16(%rsp), %r14
	leaq	.LJTI2_3(%rip), %rax
	movslq	(%rax,%rdx,4), %rcx
	addq	%rax, %rcx
	jmpq	*%rcx
.LBB2_237:
	movq	%r14, %rbp
	movq	%rdx, 40(%rsp)
	movq	%rdx, %r15
	jmp	.LBB2_1096
.LBB2_238:
	movq	$0, (%rsp)
	movb	$7, %sil
	movl	$1, %edi
	movb	$1, 36(%rsp)
	movl	$0, %edx
	movl	$0, %r8d
	cmpb	$4, %r14b
	jne	.LBB2_373
	movb	%r10b, 64(%rsp)
	movq	%rax, 48(%rsp)
	movl	$0, %eax
	movl	$0, %r13d
	movl	$0, %ebp
	movl	$0, %ecx
	movl	$0, %ebx
	movl	$0, %r10d
	movq	%r10, 72(%rsp)
	movl	$0, %r10d
	movq	%r10, 56(%rsp)
	movl	$0, %r10d
	movl	$0, %r11d
	movq	%r11, 40(%rsp)
	movl	$0, %r15d
	movl	$0, %r12d
	movl	$0, %r11d
	cmpb	$2, %r9b
	jmp	.LBB2_398
.LBB2_240:
	movq	$0, (%rsp)
	movb	$7, %sil
	movl	$1, %edi
	movb	$1, 36(%rsp)
	movl	$0, %edx
	movl	$0, %r8d
	cmpb	$4, %r14b
	jne	.LBB2_373
	movb	%r10b, 64(%rsp)
	movq	%rax, 48(%rsp)
	movl	$0, %eax
	movl	$0, %r13d
	movl	$0, %ebp
	movl	$0, %ecx
	movl	$0, %ebx
	movl	$0, %r10d
	movq	%r10, 72(%rsp)
	movl	$0, %r10d
	movq	%r10, 56(%rsp)
	movl	$0, %r10d
	movl	$0, %r11d
	movq	%r11, 40(%rsp)
	movl	$0, %r15d
	movl	$0, %r12d
	movl	$0, %r11d
	cmpb	$3, %r9b
	jmp	.LBB2_398
.LBB2_242:
	movq	$0, (%rsp)
	movb	$7, %sil
	movl	$1, %edi
	movb	$1, 36(%rsp)
	movl	$0, %edx
	cmpb	$4, %r14b
	jne	.LBB2_373
	movb	%r10b, 64(%rsp)
	movl	$0, %r8d
	movl	$0, %eax
	movq	%rax, 48(%rsp)
	movl	$0, %eax
	movl	$0, %r13d
	movl	$0, %ebp
	movl	$0, %ecx
	movl	$0, %ebx
	movl	$0, %r10d
	movq	%r10, 72(%rsp)
	movl	$0, %r10d
	movq	%r10, 56(%rsp)
	movl	$0, %r10d
	movl	$0, %r11d
	movq	%r11, 40(%rsp)
	movl	$0, %r15d
	movl	$0, %r12d
	movl	$0, %r11d
	cmpb	$5, %r9b
	jmp	.LBB2_398
.LBB2_244:
	pxor	%xmm0, %xmm0
	movdqa	%xmm0, 80(%rsp)
	movdqa	%xmm0, 96(%rsp)
	movzbl	%r14b, %edx
	leaq	.LJTI2_5(%rip), %rax
	movslq	(%rax,%rdx,4), %rcx
	addq	%rax, %rcx
	jmpq	*%rcx
.LBB2_245:
	movb	%r10b, 64(%rsp)
	testq	%rbx, %rbx
	movq	24(%rsp), %r14
	je	.LBB2_470
	js	.LBB2_1556
	movl	$1, %esi
	movq	%rbx, %rdi
	callq	rattle_alloc@PLT
	testb	$1, %al
	je	.LBB2_1556
	movq	%rdx, %rax
	movq	(%rsp), %rsi
	subq	%rsi, %rax
	cmpq	%rbx, %rax
	jae	.LBB2_471
	movq	%rdx, %r13
	xorl	%eax, %eax
	cmpq	$4, %rbx
	jb	.LBB2_1201
	movq	%r13, %rcx
	subq	%rsi, %rcx
	cmpq	$32, %rcx
	movq	8(%rsp), %r9
	jb	.LBB2_1209
	movabsq	$9223372036854775776, %rcx
	cmpq	$32, %rbx
	jae	.LBB2_1202
	xorl	%eax, %eax
	jmp	.LBB2_1206
.LBB2_253:
	pxor	%xmm0, %xmm0
	movdqa	%xmm0, 80(%rsp)
	movdqa	%xmm0, 96(%rsp)
	movzbl	%r14b, %eax
	xorl	%r12d, %r12d
	movl	$51, %ecx
	btl	%eax, %ecx
	jb	.LBB2_480
	cmpl	$2, %eax
	jne	.LBB2_419
	testq	%rbx, %rbx
	je	.LBB2_425
	movb	$3, %r12b
	js	.LBB2_480
	movl	$1, %esi
	movq	%rbx, %rdi
	movq	%rbx, %r14
	movl	%r10d, %ebx
	callq	rattle_alloc@PLT
	testb	$1, %al
	je	.LBB2_480
	movl	%ebx, %r10d
	movq	%r14, %rbx
	movq	%rdx, %rax
	movq	(%rsp), %rsi
	subq	%rsi, %rax
	cmpq	%r14, %rax
	movb	%r10b, 64(%rsp)
	jae	.LBB2_1159
	xorl	%eax, %eax
	cmpq	$4, %rbx
	movq	24(%rsp), %r14
	jb	.LBB2_1274
	movq	%rdx, %rcx
	subq	%rsi, %rcx
	cmpq	$32, %rcx
	movq	8(%rsp), %r9
	jb	.LBB2_1362
	movabsq	$9223372036854775776, %rcx
	cmpq	$32, %rbx
	jae	.LBB2_1275
	xorl	%eax, %eax
	jmp	.LBB2_1359
.LBB2_263:
	pxor	%xmm0, %xmm0
	movdqa	%xmm0, 80(%rsp)
	movdqa	%xmm0, 96(%rsp)
	movzbl	%r14b, %eax
	xorl	%r12d, %r12d
	movl	$51, %ecx
	btl	%eax, %ecx
	jb	.LBB2_480
	movb	%r10b, 64(%rsp)
	cmpl	$2, %eax
	jne	.LBB2_409
	testq	%rbx, %rbx
	je	.LBB2_413
	movb	$3, %r12b
	js	.LBB2_480
	movl	$1, %esi
	movq	%rbx, %rdi
	callq	rattle_alloc@PLT
	testb	$1, %al
	je	.LBB2_480
	movq	%rdx, %rax
	movq	(%rsp), %rsi
	subq	%rsi, %rax
	cmpq	%rbx, %rax
	jae	.LBB2_1158
	xorl	%eax, %eax
	cmpq	$4, %rbx
	movq	24(%rsp), %r14
	jb	.LBB2_1279
	movq	%rdx, %rcx
	subq	%rsi, %rcx
	cmpq	$32, %rcx
	movq	8(%rsp), %r9
	jb	.LBB2_1371
	movabsq	$9223372036854775776, %rcx
	cmpq	$32, %rbx
	jae	.LBB2_1280
	xorl	%eax, %eax
	jmp	.LBB2_1368
.LBB2_273:
	pxor	%xmm0, %xmm0
	movdqa	%xmm0, 80(%rsp)
	movdqa	%xmm0, 96(%rsp)
	movzbl	%r14b, %eax
	xorl	%r12d, %r12d
	movl	$51, %ecx
	btl	%eax, %ecx
	jb	.LBB2_480
	movb	%r10b, 64(%rsp)
	cmpl	$2, %eax
	jne	.LBB2_409
	testq	%rbx, %rbx
	je	.LBB2_413
	movb	$3, %r12b
	js	.LBB2_480
	movl	$1, %esi
	movq	%rbx, %rdi
	callq	rattle_alloc@PLT
	testb	$1, %al
	je	.LBB2_480
	movq	%rdx, %rax
	movq	(%rsp), %rsi
	subq	%rsi, %rax
	cmpq	%rbx, %rax
	jae	.LBB2_1158
	xorl	%eax, %eax
	cmpq	$4, %rbx
	movq	24(%rsp), %r14
	jb	.LBB2_1284
	movq	%rdx, %rcx
	subq	%rsi, %rcx
	cmpq	$32, %rcx
	movq	8(%rsp), %r9
	jb	.LBB2_1380
	movabsq	$9223372036854775776, %rcx
	cmpq	$32, %rbx
	jae	.LBB2_1285
	xorl	%eax, %eax
	jmp	.LBB2_1377
.LBB2_283:
	pxor	%xmm0, %xmm0
	movdqa	%xmm0, 80(%rsp)
	movdqa	%xmm0, 96(%rsp)
	movzbl	%r14b, %edx
	leaq	.LJTI2_7(%rip), %rax
	movslq	(%rax,%rdx,4), %rcx
	addq	%rax, %rcx
	jmpq	*%rcx
.LBB2_284:
	movb	%r10b, 64(%rsp)
	testq	%rbx, %rbx
	movq	24(%rsp), %r14
	je	.LBB2_470
	js	.LBB2_1556
	movl	$1, %esi
	movq	%rbx, %rdi
	callq	rattle_alloc@PLT
	testb	$1, %al
	je	.LBB2_1556
	movq	%rdx, %rax
	movq	(%rsp), %rsi
	subq	%rsi, %rax
	cmpq	%rbx, %rax
	jae	.LBB2_471
	movq	%rdx, %r13
	xorl	%eax, %eax
	cmpq	$4, %rbx
	jb	.LBB2_1214
	movq	%r13, %rcx
	subq	%rsi, %rcx
	cmpq	$32, %rcx
	movq	8(%rsp), %r9
	jb	.LBB2_1223
	movabsq	$9223372036854775776, %rcx
	cmpq	$32, %rbx
	jae	.LBB2_1216
	xorl	%eax, %eax
	jmp	.LBB2_1220
.LBB2_292:
	pxor	%xmm0, %xmm0
	movdqa	%xmm0, 80(%rsp)
	movdqa	%xmm0, 96(%rsp)
	movzbl	%r14b, %edi
	leaq	.LJTI2_8(%rip), %rax
	movslq	(%rax,%rdi,4), %rcx
	addq	%rax, %rcx
	jmpq	*%rcx
.LBB2_293:
	movb	%r10b, 64(%rsp)
	xorl	%r15d, %r15d
	movq	%rdi, %rbx
	movq	8(%rsp), %r9
	movq	24(%rsp), %r14
	jmp	.LBB2_1103
.LBB2_294:
	pxor	%xmm0, %xmm0
	movdqa	%xmm0, 80(%rsp)
	movdqa	%xmm0, 96(%rsp)
	movzbl	%r14b, %eax
	xorl	%r12d, %r12d
	movl	$51, %ecx
	btl	%eax, %ecx
	jb	.LBB2_480
	movb	%r10b, 64(%rsp)
	cmpl	$2, %eax
	jne	.LBB2_409
	testq	%rbx, %rbx
	je	.LBB2_413
	movb	$3, %r12b
	js	.LBB2_480
	movl	$1, %esi
	movq	%rbx, %rdi
	callq	rattle_alloc@PLT
	testb	$1, %al
	je	.LBB2_480
	movq	%rdx, %rax
	movq	(%rsp), %rsi
	subq	%rsi, %rax
	cmpq	%rbx, %rax
	jae	.LBB2_1158
	xorl	%eax, %eax
	cmpq	$4, %rbx
	movq	24(%rsp), %r14
	jb	.LBB2_1289
	movq	%rdx, %rcx
	subq	%rsi, %rcx
	cmpq	$32, %rcx
	movq	8(%rsp), %r9
	jb	.LBB2_1389
	movabsq	$9223372036854775776, %rcx
	cmpq	$32, %rbx
	jae	.LBB2_1290
	xorl	%eax, %eax
	jmp	.LBB2_1386
.LBB2_304:
	pxor	%xmm0, %xmm0
	movdqa	%xmm0, 80(%rsp)
	movdqa	%xmm0, 96(%rsp)
	movdqa	%xmm0, 112(%rsp)
	movzbl	%r14b, %r14d
	leal	-2(%r14), %eax
	cmpl	$4, %eax
	jb	.LBB2_412
	testl	%r14d, %r14d
	movq	8(%rsp), %r9
	movb	%r10b, 64(%rsp)
	jne	.LBB2_438
	xorl	%ebp, %ebp
	movq	%r14, %rbx
	movq	%r14, %rcx
	movq	%r14, %r13
	movq	%r14, %rax
	jmp	.LBB2_440
.LBB2_307:
	pxor	%xmm0, %xmm0
	movdqa	%xmm0, 80(%rsp)
	movdqa	%xmm0, 96(%rsp)
	movzbl	%r14b, %eax
	xorl	%r12d, %r12d
	movl	$51, %ecx
	btl	%eax, %ecx
	jb	.LBB2_480
	movb	%r10b, 64(%rsp)
	cmpl	$2, %eax
	jne	.LBB2_409
	testq	%rbx, %rbx
	je	.LBB2_413
	movb	$3, %r12b
	js	.LBB2_480
	movl	$1, %esi
	movq	%rbx, %rdi
	callq	rattle_alloc@PLT
	testb	$1, %al
	je	.LBB2_480
	movq	%rdx, %rax
	movq	(%rsp), %rsi
	subq	%rsi, %rax
	cmpq	%rbx, %rax
	jae	.LBB2_1158
	xorl	%eax, %eax
	cmpq	$4, %rbx
	movq	24(%rsp), %r14
	jb	.LBB2_1294
	movq	%rdx, %rcx
	subq	%rsi, %rcx
	cmpq	$32, %rcx
	movq	8(%rsp), %r9
	jb	.LBB2_1398
	movabsq	$9223372036854775776, %rcx
	cmpq	$32, %rbx
	jae	.LBB2_1297
	xorl	%eax, %eax
	jmp	.LBB2_1395
.LBB2_317:
	pxor	%xmm0, %xmm0
	movdqa	%xmm0, 80(%rsp)
	movdqa	%xmm0, 96(%rsp)
	movzbl	%r14b, %eax
	xorl	%r12d, %r12d
	movl	$51, %ecx
	btl	%eax, %ecx
	jb	.LBB2_480
	movb	%r10b, 64(%rsp)
	cmpl	$2, %eax
	jne	.LBB2_409
	testq	%rbx, %rbx
	je	.LBB2_413
	movb	$3, %r12b
	js	.LBB2_480
	movl	$1, %esi
	movq	%rbx, %rdi
	callq	rattle_alloc@PLT
	testb	$1, %al
	je	.LBB2_480
	movq	%rdx, %rax
	movq	(%rsp), %rsi
	subq	%rsi, %rax
	cmpq	%rbx, %rax
	jae	.LBB2_1158
	xorl	%eax, %eax
	cmpq	$4, %rbx
	movq	24(%rsp), %r14
	jb	.LBB2_1295
	movq	%rdx, %rcx
	subq	%rsi, %rcx
	cmpq	$32, %rcx
	movq	8(%rsp), %r9
	jb	.LBB2_1407
	movabsq	$9223372036854775776, %rcx
	cmpq	$32, %rbx
	jae	.LBB2_1301
	xorl	%eax, %eax
	jmp	.LBB2_1404
.LBB2_327:
	pxor	%xmm0, %xmm0
	movdqa	%xmm0, 80(%rsp)
	movdqa	%xmm0, 96(%rsp)
	movzbl	%r14b, %eax
	xorl	%r12d, %r12d
	movl	$51, %ecx
	btl	%eax, %ecx
	jb	.LBB2_480
	cmpl	$2, %eax
	jne	.LBB2_419
	testq	%rbx, %rbx
	je	.LBB2_425
	movb	$3, %r12b
	js	.LBB2_480
	movl	$1, %esi
	movq	%rbx, %rdi
	movq	%rbx, %r14
	movl	%r10d, %ebx
	callq	rattle_alloc@PLT
	testb	$1, %al
	je	.LBB2_480
	movl	%ebx, %r10d
	movq	%r14, %rbx
	movq	%rdx, %rax
	movq	(%rsp), %rsi
	subq	%rsi, %rax
	cmpq	%r14, %rax
	movb	%r10b, 64(%rsp)
	jae	.LBB2_1159
	xorl	%eax, %eax
	cmpq	$4, %rbx
	movq	24(%rsp), %r14
	jb	.LBB2_1296
	movq	%rdx, %rcx
	subq	%rsi, %rcx
	cmpq	$32, %rcx
	movq	8(%rsp), %r9
	jb	.LBB2_1416
	movabsq	$9223372036854775776, %rcx
	cmpq	$32, %rbx
	jae	.LBB2_1305
	xorl	%eax, %eax
	jmp	.LBB2_1413
.LBB2_337:
	movq	$0, (%rsp)
	movb	$7, %sil
	movl	$1, %edi
	movb	$1, 36(%rsp)
	movl	$0, %edx
	movl	$0, %r8d
	cmpb	$4, %r14b
	jne	.LBB2_373
	movb	%r10b, 64(%rsp)
	movq	%rax, 48(%rsp)
	movl	$0, %eax
	movl	$0, %r13d
	movl	$0, %ebp
	movl	$0, %ecx
	movl	$0, %ebx
	movl	$0, %r10d
	movq	%r10, 72(%rsp)
	movl	$0, %r10d
	movq	%r10, 56(%rsp)
	movl	$0, %r10d
	movl	$0, %r11d
	movq	%r11, 40(%rsp)
	movl	$0, %r15d
	movl	$0, %r12d
	movl	$0, %r11d
	testb	%r9b, %r9b
	jmp	.LBB2_398
.LBB2_339:
	pxor	%xmm0, %xmm0
	movdqa	%xmm0, 80(%rsp)
	movdqa	%xmm0, 96(%rsp)
	movzbl	%r14b, %eax
	xorl	%r12d, %r12d
	movl	$51, %ecx
	btl	%eax, %ecx
	jb	.LBB2_480
	cmpl	$2, %eax
	jne	.LBB2_419
	testq	%rbx, %rbx
	je	.LBB2_425
	movb	$3, %r12b
	js	.LBB2_480
	movl	$1, %esi
	movq	%rbx, %rdi
	movq	%rbx, %r14
	movl	%r10d, %ebx
	callq	rattle_alloc@PLT
	testb	$1, %al
	je	.LBB2_480
	movl	%ebx, %r10d
	movq	%r14, %rbx
	movq	%rdx, %rax
	movq	(%rsp), %rsi
	subq	%rsi, %rax
	cmpq	%r14, %rax
	movb	%r10b, 64(%rsp)
	jae	.LBB2_1159
	xorl	%eax, %eax
	cmpq	$4, %rbx
	movq	24(%rsp), %r14
	jb	.LBB2_1309
	movq	%rdx, %rcx
	subq	%rsi, %rcx
	cmpq	$32, %rcx
	movq	8(%rsp), %r9
	jb	.LBB2_1425
	movabsq	$9223372036854775776, %rcx
	cmpq	$32, %rbx
	jae	.LBB2_1311
	xorl	%eax, %eax
	jmp	.LBB2_1422
.LBB2_349:
	pxor	%xmm0, %xmm0
	movdqa	%xmm0, 80(%rsp)
	movdqa	%xmm0, 96(%rsp)
	movzbl	%r14b, %eax
	xorl	%r12d, %r12d
	movl	$51, %ecx
	btl	%eax, %ecx
	jb	.LBB2_480
	movb	%r10b, 64(%rsp)
	cmpl	$2, %eax
	jne	.LBB2_409
	testq	%rbx, %rbx
	je	.LBB2_413
	movb	$3, %r12b
	js	.LBB2_480
	movl	$1, %esi
	movq	%rbx, %rdi
	callq	rattle_alloc@PLT
	testb	$1, %al
	je	.LBB2_480
	movq	%rdx, %rax
	movq	(%rsp), %rsi
	subq	%rsi, %rax
	cmpq	%rbx, %rax
	jae	.LBB2_1158
	xorl	%eax, %eax
	cmpq	$4, %rbx
	movq	24(%rsp), %r14
	jb	.LBB2_1310
	movq	%rdx, %rcx
	subq	%rsi, %rcx
	cmpq	$32, %rcx
	movq	8(%rsp), %r9
	jb	.LBB2_1435
	movabsq	$9223372036854775776, %rcx
	cmpq	$32, %rbx
	jae	.LBB2_1315
	xorl	%eax, %eax
	jmp	.LBB2_1432
.LBB2_359:
	pxor	%xmm0, %xmm0
	movdqa	%xmm0, 80(%rsp)
	movdqa	%xmm0, 96(%rsp)
	movzbl	%r14b, %eax
	xorl	%r12d, %r12d
	movl	$51, %ecx
	btl	%eax, %ecx
	jb	.LBB2_480
	movb	%r10b, 64(%rsp)
	cmpl	$2, %eax
	jne	.LBB2_409
	testq	%rbx, %rbx
	je	.LBB2_413
	movb	$3, %r12b
	js	.LBB2_480
	movl	$1, %esi
	movq	%rbx, %rdi
	callq	rattle_alloc@PLT
	testb	$1, %al
	je	.LBB2_480
	movq	%rdx, %rax
	movq	(%rsp), %rsi
	subq	%rsi, %rax
	cmpq	%rbx, %rax
	jae	.LBB2_1158
	xorl	%eax, %eax
	cmpq	$4, %rbx
	movq	24(%rsp), %r14
	jb	.LBB2_1319
	movq	%rdx, %rcx
	subq	%rsi, %rcx
	cmpq	$32, %rcx
	movq	8(%rsp), %r9
	jb	.LBB2_1444
	movabsq	$9223372036854775776, %rcx
	cmpq	$32, %rbx
	jae	.LBB2_1320
	xorl	%eax, %eax
	jmp	.LBB2_1441
.LBB2_369:
	movb	$1, 36(%rsp)
	xorl	%edx, %edx
	xorl	%r12d, %r12d
	cmpb	$5, %r14b
	jne	.LBB2_424
	movb	%r10b, 64(%rsp)
	movq	$0, 48(%rsp)
	xorl	%r8d, %r8d
	xorl	%r13d, %r13d
	xorl	%ebp, %ebp
	xorl	%ecx, %ecx
	xorl	%ebx, %ebx
	movq	8(%rsp), %r9
	movq	24(%rsp), %r14
	xorl	%eax, %eax
	jmp	.LBB2_1261
.LBB2_371:
	movq	$0, (%rsp)
	movb	$7, %sil
	movl	$1, %edi
	movb	$1, 36(%rsp)
	movl	$0, %edx
	movl	$0, %r8d
	cmpb	$4, %r14b
	jne	.LBB2_373
	movb	%r10b, 64(%rsp)
	movq	%rax, 48(%rsp)
	movl	$0, %eax
	movl	$0, %r13d
	movl	$0, %ebp
	movl	$0, %ecx
	movl	$0, %ebx
	movl	$0, %r10d
	movq	%r10, 72(%rsp)
	movl	$0, %r10d
	movq	%r10, 56(%rsp)
	movl	$0, %r10d
	movl	$0, %r11d
	movq	%r11, 40(%rsp)
	movl	$0, %r15d
	movl	$0, %r12d
	movl	$0, %r11d
	cmpb	$1, %r9b
	jmp	.LBB2_398
.LBB2_373:
	movq	$0, 72(%rsp)
	movq	$0, 56(%rsp)
	xorl	%r10d, %r10d
	movq	$0, 40(%rsp)
	xorl	%r15d, %r15d
	movl	$0, %r12d
	jmp	.LBB2_484
.LBB2_374:
	pxor	%xmm0, %xmm0
	movdqa	%xmm0, 80(%rsp)
	movdqa	%xmm0, 96(%rsp)
	movzbl	%r14b, %edx
	leaq	16(%rsp), %r14
	leaq	.LJTI2_4(%rip), %rax
	movslq	(%rax,%rdx,4), %rcx
	addq	%rax, %rcx
	jmpq	*%rcx
.LBB2_375:
	xorl	%r12d, %r12d
	jmp	.LBB2_480
.LBB2_376:
	pxor	%xmm0, %xmm0
	movdqa	%xmm0, 80(%rsp)
	movdqa	%xmm0, 96(%rsp)
	movzbl	%r14b, %eax
	xorl	%r12d, %r12d
	movl	$51, %ecx
	btl	%eax, %ecx
	jb	.LBB2_480
	movb	%r10b, 64(%rsp)
	cmpl	$2, %eax
	jne	.LBB2_409
	testq	%rbx, %rbx
	je	.LBB2_413
	movb	$3, %r12b
	js	.LBB2_480
	movl	$1, %esi
	movq	%rbx, %rdi
	callq	rattle_alloc@PLT
	testb	$1, %al
	je	.LBB2_480
	movq	%rdx, %rax
	movq	(%rsp), %rsi
	subq	%rsi, %rax
	cmpq	%rbx, %rax
	jae	.LBB2_1158
	xorl	%eax, %eax
	cmpq	$4, %rbx
	movq	24(%rsp), %r14
	jb	.LBB2_1324
	movq	%rdx, %rcx
	subq	%rsi, %rcx
	cmpq	$32, %rcx
	movq	8(%rsp), %r9
	jb	.LBB2_1453
	movabsq	$9223372036854775776, %rcx
	cmpq	$32, %rbx
	jae	.LBB2_1326
	xorl	%eax, %eax
	jmp	.LBB2_1450
.LBB2_386:
	pxor	%xmm0, %xmm0
	movdqa	%xmm0, 80(%rsp)
	movdqa	%xmm0, 96(%rsp)
	movzbl	%r14b, %eax
	xorl	%r12d, %r12d
	movl	$51, %ecx
	btl	%eax, %ecx
	jb	.LBB2_480
	movb	%r10b, 64(%rsp)
	cmpl	$2, %eax
	jne	.LBB2_409
	testq	%rbx, %rbx
	je	.LBB2_413
	movb	$3, %r12b
	js	.LBB2_480
	movl	$1, %esi
	movq	%rbx, %rdi
	callq	rattle_alloc@PLT
	testb	$1, %al
	je	.LBB2_480
	movq	%rdx, %rax
	movq	(%rsp), %rsi
	subq	%rsi, %rax
	cmpq	%rbx, %rax
	jae	.LBB2_1158
	xorl	%eax, %eax
	cmpq	$4, %rbx
	movq	24(%rsp), %r14
	jb	.LBB2_1325
	movq	%rdx, %rcx
	subq	%rsi, %rcx
	cmpq	$32, %rcx
	movq	8(%rsp), %r9
	jb	.LBB2_1462
	movabsq	$9223372036854775776, %rcx
	cmpq	$32, %rbx
	jae	.LBB2_1330
	xorl	%eax, %eax
	jmp	.LBB2_1459
.LBB2_396:
	movq	$0, (%rsp)
	movb	$7, %sil
	movl	$1, %edi
	movb	$1, 36(%rsp)
	movl	$0, %edx
	movl	$0, %r12d
	cmpb	$4, %r14b
	jne	.LBB2_194
	movb	%r10b, 64(%rsp)
	movq	%rax, 48(%rsp)
	movl	$0, %eax
	movl	$0, %r13d
	movl	$0, %ebp
	movl	$0, %ecx
	movl	$0, %ebx
	movl	$0, %r10d
	movq	%r10, 72(%rsp)
	movl	$0, %r10d
	movq	%r10, 56(%rsp)
	movl	$0, %r10d
	movl	$0, %r11d
	movq	%r11, 40(%rsp)
	movl	$0, %r15d
	movl	$0, %r11d
	cmpb	$4, %r9b
.LBB2_398:
	movq	8(%rsp), %r9
	movq	24(%rsp), %r14
	je	.LBB2_1261
	jmp	.LBB2_486
.LBB2_399:
	pxor	%xmm0, %xmm0
	movdqa	%xmm0, 80(%rsp)
	movdqa	%xmm0, 96(%rsp)
	movzbl	%r14b, %eax
	xorl	%r12d, %r12d
	movl	$51, %ecx
	btl	%eax, %ecx
	jb	.LBB2_480
	movb	%r10b, 64(%rsp)
	cmpl	$2, %eax
	jne	.LBB2_409
	testq	%rbx, %rbx
	je	.LBB2_413
	movb	$3, %r12b
	js	.LBB2_480
	movl	$1, %esi
	movq	%rbx, %rdi
	callq	rattle_alloc@PLT
	testb	$1, %al
	je	.LBB2_480
	movq	%rdx, %rax
	movq	(%rsp), %rsi
	subq	%rsi, %rax
	cmpq	%rbx, %rax
	jae	.LBB2_1158
	xorl	%eax, %eax
	cmpq	$4, %rbx
	movq	24(%rsp), %r14
	jb	.LBB2_1334
	movq	%rdx, %rcx
	subq	%rsi, %rcx
	cmpq	$32, %rcx
	movq	8(%rsp), %r9
	jb	.LBB2_1471
	movabsq	$9223372036854775776, %rcx
	cmpq	$32, %rbx
	jae	.LBB2_1335
	xorl	%eax, %eax
	jmp	.LBB2_1468
.LBB2_409:
	movzbl	(%rsp), %eax
	movq	%rax, 320(%rsp)
	movq	%rbx, 328(%rsp)
	movq	%r15, 336(%rsp)
	leaq	80(%rsp), %rdi
	leaq	320(%rsp), %rsi
	callq	"unftp_control_message::sent::Sent::to_text"
	movb	$3, %r12b
	cmpb	$0, 80(%rsp)
	jne	.LBB2_480
	movq	88(%rsp), %rax
	movq	96(%rsp), %rbx
	movq	104(%rsp), %r13
	movq	%rax, (%rsp)
	jmp	.LBB2_414
.LBB2_411:
	pxor	%xmm0, %xmm0
	movdqa	%xmm0, 80(%rsp)
	movdqa	%xmm0, 96(%rsp)
	movzbl	%r14b, %edx
	leaq	.LJTI2_6(%rip), %rax
	movslq	(%rax,%rdx,4), %rcx
	addq	%rax, %rcx
	jmpq	*%rcx
.LBB2_412:
	movb	$7, %sil
	movl	$1, %edi
	movb	$1, 36(%rsp)
	movq	$0, 72(%rsp)
	movq	$0, (%rsp)
	movq	$0, 56(%rsp)
	xorl	%r10d, %r10d
	movq	$0, 40(%rsp)
	xorl	%r15d, %r15d
	xorl	%r12d, %r12d
	jmp	.LBB2_483
.LBB2_413:
	leaq	16(%rsp), %rax
	xorl	%ebx, %ebx
	movq	%rax, (%rsp)
	xorl	%r13d, %r13d
	jmp	.LBB2_414
.LBB2_416:
	movzbl	(%rsp), %eax
	movq	%rax, 320(%rsp)
	movq	%rbx, 328(%rsp)
	movq	%r15, 336(%rsp)
	leaq	80(%rsp), %rdi
	leaq	320(%rsp), %rsi
	callq	"unftp_control_message::sent::Sent::to_bytes"
	movb	$3, %r12b
	cmpb	$0, 80(%rsp)
	jne	.LBB2_480
	movq	88(%rsp), %rax
	movq	96(%rsp), %rbp
	movq	104(%rsp), %r13
	movq	112(%rsp), %rsi
	movq	120(%rsp), %rcx
.LBB2_418:
	movq	%rax, (%rsp)
	movb	$1, 36(%rsp)
	movq	$0, 48(%rsp)
	xorl	%r8d, %r8d
	xorl	%ebx, %ebx
	movq	8(%rsp), %r9
	movq	24(%rsp), %r14
	movq	%rbp, %rax
	movq	%rsi, %rbp
	jmp	.LBB2_1261
.LBB2_419:
	movzbl	(%rsp), %eax
	movq	%rax, 320(%rsp)
	movq	%rbx, 328(%rsp)
	movq	%r15, 336(%rsp)
	leaq	80(%rsp), %rdi
	leaq	320(%rsp), %rsi
	movb	%r10b, 64(%rsp)
	callq	"unftp_control_message::sent::Sent::to_text"
	movb	$3, %r12b
	cmpb	$0, 80(%rsp)
	jne	.LBB2_480
	movq	88(%rsp), %rax
	movq	96(%rsp), %rbx
	movq	104(%rsp), %rdx
	movq	%rax, (%rsp)
	jmp	.LBB2_426
.LBB2_421:
	movb	%r10b, 64(%rsp)
	movq	%rdx, %rcx
	xorl	%eax, %eax
	movq	%rdx, %rbx
	movq	%rdx, %rbp
	movq	8(%rsp), %r9
	movq	24(%rsp), %r14
	jmp	.LBB2_1259
.LBB2_422:
	movb	%r10b, 64(%rsp)
	movzbl	(%rsp), %eax
	movq	%rax, 320(%rsp)
	movq	%rbx, 328(%rsp)
	movq	%r15, 336(%rsp)
	leaq	80(%rsp), %rdi
	leaq	320(%rsp), %rsi
	callq	"unftp_control_message::sent::Sent::to_text"
	cmpb	$0, 80(%rsp)
	movq	24(%rsp), %r14
	jne	.LBB2_1556
	movq	88(%rsp), %rax
	movq	96(%rsp), %rbx
	movl	$1, %ecx
	movq	104(%rsp), %rbp
	movq	8(%rsp), %r9
	jmp	.LBB2_1259
.LBB2_424:
	movq	$0, 72(%rsp)
	movb	$7, %sil
	movl	$1, %edi
	movq	$0, (%rsp)
	jmp	.LBB2_195
.LBB2_425:
	movb	%r10b, 64(%rsp)
	leaq	16(%rsp), %rax
	xorl	%ebx, %ebx
	movq	%rax, (%rsp)
	xorl	%edx, %edx
	jmp	.LBB2_426
.LBB2_428:
	movq	%r11, 56(%rsp)
	movq	%rbx, %rcx
	movl	%r10d, %ebx
	movzbl	(%rsp), %eax
	movq	%rax, 320(%rsp)
	movq	%rcx, 328(%rsp)
	movq	%r15, 336(%rsp)
	leaq	80(%rsp), %rdi
	leaq	320(%rsp), %rsi
	callq	"unftp_control_message::sent::Sent::to_text"
	movb	$3, %r12b
	cmpb	$0, 80(%rsp)
	jne	.LBB2_480
	movq	88(%rsp), %rbp
	movq	96(%rsp), %r15
	movq	104(%rsp), %rcx
	movq	%rcx, 40(%rsp)
	jmp	.LBB2_1119
.LBB2_430:
	testq	%rbx, %rbx
	je	.LBB2_1095
	movb	$3, %r12b
	js	.LBB2_480
	movq	%r11, 56(%rsp)
	movq	%rbx, %r15
	movl	%r10d, %ebx
	movl	$1, %esi
	movq	%r15, %rdi
	callq	rattle_alloc@PLT
	testb	$1, %al
	je	.LBB2_480
	movq	%rdx, %rbp
	movq	%rdx, %rax
	movq	(%rsp), %rsi
	subq	%rsi, %rax
	cmpq	%r15, %rax
	jae	.LBB2_1118
	xorl	%eax, %eax
	movq	%r15, %rdx
	cmpq	$4, %r15
	movq	48(%rsp), %r13
	jb	.LBB2_1269
	movq	%rbp, %rcx
	subq	%rsi, %rcx
	cmpq	$32, %rcx
	movq	8(%rsp), %r9
	movl	%ebx, %r10d
	movq	%rdx, %r15
	movq	56(%rsp), %r11
	jb	.LBB2_1351
	movabsq	$9223372036854775776, %rcx
	cmpq	$32, %r15
	jae	.LBB2_1270
	xorl	%eax, %eax
	jmp	.LBB2_1347
.LBB2_438:
	movzbl	(%rsp), %eax
	movq	%rax, 320(%rsp)
	movq	%rbx, 328(%rsp)
	movq	%r15, 336(%rsp)
	leaq	80(%rsp), %rdi
	leaq	320(%rsp), %rsi
	callq	"unftp_control_message::sent::Sent::to_bytes"
	cmpb	$0, 80(%rsp)
	jne	.LBB2_1556
	movq	88(%rsp), %rax
	movq	96(%rsp), %r13
	movq	104(%rsp), %rbp
	movq	112(%rsp), %rcx
	movq	120(%rsp), %rbx
	movq	8(%rsp), %r9
.LBB2_440:
	movb	$1, 36(%rsp)
	movq	$0, 48(%rsp)
	xorl	%r8d, %r8d
	movq	%r14, (%rsp)
	movq	24(%rsp), %r14
	jmp	.LBB2_1261
.LBB2_441:
	movb	%r10b, 64(%rsp)
	movzbl	(%rsp), %eax
	movq	%rax, 320(%rsp)
	movq	%rbx, 328(%rsp)
	movq	%r15, 336(%rsp)
	leaq	80(%rsp), %rdi
	leaq	320(%rsp), %rsi
	callq	"unftp_control_message::sent::Sent::to_text"
	cmpb	$0, 80(%rsp)
	movq	24(%rsp), %r14
	jne	.LBB2_1556
	movq	88(%rsp), %r15
	movq	104(%rsp), %rbx
	jmp	.LBB2_1101
.LBB2_443:
	movb	%r10b, 64(%rsp)
	testq	%rbx, %rbx
	movq	24(%rsp), %r14
	je	.LBB2_1097
	js	.LBB2_1556
	movl	$1, %esi
	movq	%rbx, %rdi
	callq	rattle_alloc@PLT
	testb	$1, %al
	je	.LBB2_1556
	movq	%rdx, %rax
	movq	(%rsp), %rsi
	subq	%rsi, %rax
	cmpq	%rbx, %rax
	jae	.LBB2_1100
	xorl	%eax, %eax
	cmpq	$4, %rbx
	jb	.LBB2_1215
	movq	%rdx, %rcx
	subq	%rsi, %rcx
	cmpq	$32, %rcx
	movq	8(%rsp), %r9
	jb	.LBB2_1236
	movabsq	$9223372036854775776, %rcx
	cmpq	$32, %rbx
	jae	.LBB2_1228
	xorl	%eax, %eax
	jmp	.LBB2_1232
.LBB2_451:
	movq	%r14, %rbp
	movq	%rdx, 40(%rsp)
	movq	%rdx, %r15
	jmp	.LBB2_1099
.LBB2_452:
	movq	%r11, 56(%rsp)
	movq	%rbx, %rcx
	movl	%r10d, %ebx
	movzbl	(%rsp), %eax
	movq	%rax, 320(%rsp)
	movq	%rcx, 328(%rsp)
	movq	%r15, 336(%rsp)
	leaq	80(%rsp), %rdi
	leaq	320(%rsp), %rsi
	callq	"unftp_control_message::sent::Sent::to_text"
	movb	$3, %r12b
	cmpb	$0, 80(%rsp)
	jne	.LBB2_480
	movq	88(%rsp), %rbp
	movq	96(%rsp), %r15
	movq	104(%rsp), %rcx
	movq	%rcx, 40(%rsp)
	jmp	.LBB2_1167
.LBB2_454:
	testq	%rbx, %rbx
	je	.LBB2_1098
	movb	$3, %r12b
	js	.LBB2_480
	movq	%r11, 56(%rsp)
	movq	%rbx, %r15
	movl	%r10d, %ebx
	movl	$1, %esi
	movq	%r15, %rdi
	callq	rattle_alloc@PLT
	testb	$1, %al
	je	.LBB2_480
	movq	%rdx, %rbp
	movq	%rdx, %rax
	movq	(%rsp), %rsi
	subq	%rsi, %rax
	cmpq	%r15, %rax
	jae	.LBB2_1166
	xorl	%eax, %eax
	movq	%r15, %rdx
	cmpq	$4, %r15
	movq	48(%rsp), %r13
	jb	.LBB2_1339
	movq	%rbp, %rcx
	subq	%rsi, %rcx
	cmpq	$32, %rcx
	movq	8(%rsp), %r9
	movl	%ebx, %r10d
	movq	%rdx, %r15
	movq	56(%rsp), %r11
	jb	.LBB2_1482
	movabsq	$9223372036854775776, %rcx
	cmpq	$32, %r15
	jae	.LBB2_1340
	xorl	%eax, %eax
	jmp	.LBB2_1478
.LBB2_462:
	movb	%r10b, 64(%rsp)
	testq	%rbx, %rbx
	movq	24(%rsp), %r14
	je	.LBB2_470
	js	.LBB2_1556
	movl	$1, %esi
	movq	%rbx, %rdi
	callq	rattle_alloc@PLT
	testb	$1, %al
	je	.LBB2_1556
	movq	%rdx, %rax
	movq	(%rsp), %rsi
	subq	%rsi, %rax
	cmpq	%rbx, %rax
	jae	.LBB2_471
	movq	%rdx, %r13
	xorl	%eax, %eax
	cmpq	$4, %rbx
	jb	.LBB2_1243
	movq	%r13, %rcx
	subq	%rsi, %rcx
	cmpq	$32, %rcx
	movq	8(%rsp), %r9
	jb	.LBB2_1252
	movabsq	$9223372036854775776, %rcx
	cmpq	$32, %rbx
	jae	.LBB2_1244
	xorl	%eax, %eax
	jmp	.LBB2_1248
.LBB2_470:
	movl	$1, %ecx
	leaq	16(%rsp), %rax
	xorl	%ebx, %ebx
	xorl	%ebp, %ebp
	movq	8(%rsp), %r9
	jmp	.LBB2_1259
.LBB2_1158:
	movq	%rdx, %rdi
	movq	%rdx, %r13
	movq	%rbx, %rdx
	callq	memmove@PLT
	movq	%r13, (%rsp)
	movq	%rbx, %r13
.LBB2_414:
	movq	8(%rsp), %r9
	movq	24(%rsp), %r14
.LBB2_415:
	movb	$1, 36(%rsp)
	movq	$0, 48(%rsp)
	xorl	%r8d, %r8d
	movq	%rbx, %rax
	xorl	%ebp, %ebp
	jmp	.LBB2_1260
.LBB2_471:
	movq	%rdx, %rdi
	movq	%rdx, %r13
	movq	%rbx, %rdx
	callq	memmove@PLT
	movl	$1, %ecx
	movq	%rbx, %rbp
	movq	8(%rsp), %r9
	movq	%r13, %rax
	jmp	.LBB2_1259
.LBB2_101:
	movzbl	4(%rbp), %eax
	cmpq	$32, %rax
	ja	.LBB2_1115
	movabsq	$4294976512, %rcx
	btq	%rax, %rcx
	jae	.LBB2_1115
	addq	$-5, %r14
	movq	%rbp, %rbx
	addq	$5, %rbp
	movl	$4, %eax
	movb	$42, %r15b
	jmp	.LBB2_104
.LBB2_472:
	movzbl	225(%rsp), %eax
	leal	-65(%rax), %ecx
	leal	32(%rax), %edx
	cmpb	$26, %cl
	movzbl	%dl, %ecx
	cmovael	%eax, %ecx
	cmpb	$115, %cl
	jne	.LBB2_476
	movzbl	226(%rsp), %eax
	leal	-65(%rax), %ecx
	leal	32(%rax), %edx
	cmpb	$26, %cl
	movzbl	%dl, %ecx
	cmovael	%eax, %ecx
	cmpb	$108, %cl
	jne	.LBB2_476
	xorl	%eax, %eax
.LBB2_475:
	pxor	%xmm0, %xmm0
	movdqu	%xmm0, (%rsi)
	movq	$0, 16(%rsi)
	movb	$3, %r9b
	movb	$4, %r14b
	xorl	%ecx, %ecx
	xorl	%r12d, %r12d
	jmp	.LBB2_477
.LBB2_476:
	pxor	%xmm0, %xmm0
	movdqu	%xmm0, (%rsi)
	movq	$0, 16(%rsi)
	movb	$1, %cl
	xorl	%r12d, %r12d
	xorl	%r14d, %r14d
	xorl	%r9d, %r9d
	xorl	%eax, %eax
.LBB2_477:
	movq	16(%rsi), %rdx
	movq	%rsi, %rdi
	leaq	96(%rsp), %rsi
	movq	%rdx, 16(%rsi)
	movdqu	(%rdi), %xmm0
	movdqu	%xmm0, (%rsi)
.LBB2_478:
	movl	%r10d, %ebx
	xorl	%r8d, %r8d
.LBB2_479:
	leaq	96(%rsp), %rsi
	movq	16(%rsi), %rdx
	leaq	336(%rsp), %rdi
	movq	%rdx, 16(%rdi)
	movdqu	(%rsi), %xmm0
	movdqu	%xmm0, (%rdi)
	testb	%cl, %cl
	je	.LBB2_583
.LBB2_480:
	cmpb	$3, %r12b
	je	.LBB2_1556
	cmpb	$1, %r12b
	setne	%sil
	addb	%sil, %sil
	orb	$5, %sil
	movl	$1, %edi
	movb	$1, 36(%rsp)
	movq	$0, 72(%rsp)
	movq	$0, (%rsp)
.LBB2_482:
	movq	$0, 56(%rsp)
	xorl	%r10d, %r10d
	movq	$0, 40(%rsp)
	xorl	%r15d, %r15d
.LBB2_483:
	xorl	%edx, %edx
.LBB2_484:
	xorl	%r11d, %r11d
	movq	8(%rsp), %r9
.LBB2_485:
	movq	24(%rsp), %r14
.LBB2_486:
	movq	%r15, 48(%rsp)
	orq	%rdi, %r10
	movzbl	%sil, %r13d
	orq	%r11, %r13
	movzbl	%r12b, %r12d
	shll	$8, %r12d
	orq	%r10, %r12
	movq	904(%rsp), %rsi
	leaq	8(%r9), %rbp
	movzbl	(%r14), %eax
	testl	%eax, %eax
	je	.LBB2_490
.LBB2_487:
	cmpl	$2, %eax
	jne	.LBB2_489
	pxor	%xmm0, %xmm0
	movq	912(%rsp), %rax
	movdqu	%xmm0, (%rax)
	jmp	.LBB2_490
	.p2align	4
.LBB2_489:
	movq	80(%rsi), %rax
	addq	%rax, 64(%rsi)
	movq	%rax, 88(%rsi)
.LBB2_490:
	pxor	%xmm0, %xmm0
	movdqu	%xmm0, (%r14)
	movdqa	%xmm0, 1440(%rsp)
	movdqa	%xmm0, 1456(%rsp)
	movdqa	%xmm0, 1472(%rsp)
	movdqa	%xmm0, 1488(%rsp)
	movdqa	%xmm0, 1504(%rsp)
	movq	$0, 1520(%rsp)
	movdqa	%xmm0, 1024(%rsp)
	movdqa	%xmm0, 1040(%rsp)
	movdqa	%xmm0, 1056(%rsp)
	movdqa	%xmm0, 1072(%rsp)
	movdqa	%xmm0, 1088(%rsp)
	movq	$0, 1104(%rsp)
	movdqa	%xmm0, 1216(%rsp)
	movdqa	%xmm0, 1232(%rsp)
	movdqa	%xmm0, 1248(%rsp)
	movdqa	%xmm0, 1264(%rsp)
	movdqa	%xmm0, 1280(%rsp)
	movq	$0, 1296(%rsp)
	movdqa	%xmm0, 816(%rsp)
	movdqa	%xmm0, 800(%rsp)
	movdqa	%xmm0, 784(%rsp)
	movdqa	%xmm0, 768(%rsp)
	movdqa	%xmm0, 752(%rsp)
	movq	$0, 832(%rsp)
	movdqa	%xmm0, 1184(%rsp)
	movdqa	%xmm0, 1168(%rsp)
	movdqa	%xmm0, 1152(%rsp)
	movdqa	%xmm0, 1136(%rsp)
	movdqa	%xmm0, 1120(%rsp)
	movq	$0, 1200(%rsp)
	cmpb	$27, %r13b
	sete	%al
	andb	%dl, %al
	movq	920(%rsp), %rcx
	orb	%al, (%rcx)
	movdqa	%xmm0, 288(%rsp)
	movdqa	%xmm0, 272(%rsp)
	movdqa	%xmm0, 256(%rsp)
	movdqa	%xmm0, 240(%rsp)
	movdqa	%xmm0, 224(%rsp)
	movq	$0, 304(%rsp)
	testb	%dl, %dl
	je	.LBB2_514
	movdqa	%xmm0, 320(%rsp)
	movdqa	%xmm0, 336(%rsp)
	movdqa	%xmm0, 352(%rsp)
	movdqa	%xmm0, 368(%rsp)
	movdqa	%xmm0, 384(%rsp)
	movdqa	%xmm0, 400(%rsp)
	movdqa	%xmm0, 416(%rsp)
	movdqa	%xmm0, 432(%rsp)
	movq	$0, 448(%rsp)
	movdqa	%xmm0, 1312(%rsp)
	movdqa	%xmm0, 1328(%rsp)
	movzbl	%r13b, %ebx
	leaq	.LJTI2_11(%rip), %rax
	movslq	(%rax,%rbx,4), %rcx
	addq	%rax, %rcx
	jmpq	*%rcx
.LBB2_492:
	movl	$15, %edi
	movl	$1, %esi
	callq	rattle_alloc@PLT
	testb	$1, %al
	je	.LBB2_495
	leaq	.Lstatic.88(%rip), %rax
	movq	%rdx, %rcx
	subq	%rax, %rcx
	cmpq	$14, %rcx
	ja	.LBB2_496
	movabsq	$7813865651771305806, %rax
	movq	%rax, (%rdx)
	movl	$1852140901, 8(%rdx)
	movw	$25972, 12(%rdx)
	movq	%rdx, %r15
	movb	$100, 14(%rdx)
	jmp	.LBB2_497
	.p2align	4
.LBB2_495:
	pxor	%xmm0, %xmm0
	movdqa	%xmm0, 160(%rsp)
	movdqa	%xmm0, 144(%rsp)
	movdqa	%xmm0, 128(%rsp)
	movdqa	%xmm0, 112(%rsp)
	movdqa	%xmm0, 96(%rsp)
	movdqa	%xmm0, 80(%rsp)
	movl	$10, %r13d
	movb	$1, %r14b
	xorl	%r15d, %r15d
	xorl	%esi, %esi
	jmp	.LBB2_498
.LBB2_496:
	movabsq	$7234316393937462636, %rax
	movq	%rax, 7(%rdx)
	movabsq	$7813865651771305806, %rax
	movq	%rdx, %r15
	movq	%rax, (%rdx)
.LBB2_497:
	pxor	%xmm0, %xmm0
	movdqa	%xmm0, 160(%rsp)
	movdqa	%xmm0, 144(%rsp)
	movdqa	%xmm0, 128(%rsp)
	movdqa	%xmm0, 112(%rsp)
	movdqa	%xmm0, 96(%rsp)
	movdqa	%xmm0, 80(%rsp)
	movl	$15, %esi
	movl	$9217, %r13d
	xorl	%r14d, %r14d
.LBB2_498:
	leaq	336(%rsp), %rax
	movaps	160(%rsp), %xmm0
	movups	%xmm0, 104(%rax)
	movaps	144(%rsp), %xmm0
	movups	%xmm0, 88(%rax)
	movaps	80(%rsp), %xmm0
	movaps	96(%rsp), %xmm1
	movaps	112(%rsp), %xmm2
	movaps	128(%rsp), %xmm3
	movups	%xmm3, 72(%rax)
	movups	%xmm2, 56(%rax)
	movups	%xmm1, 40(%rax)
	movups	%xmm0, 24(%rax)
	movq	360(%rsp), %r8
	leaq	.LJTI2_12(%rip), %rax
	movslq	(%rax,%rbx,4), %rcx
	addq	%rax, %rcx
	jmpq	*%rcx
.LBB2_499:
	cmpq	$0, 56(%rsp)
	je	.LBB2_502
	movq	(%rsp), %rdi
.LBB2_501:
	movq	%rsi, %rbx
	movq	%r8, %r12
	callq	rattle_dealloc@PLT
	movq	%r12, %r8
	movq	%rbx, %rsi
.LBB2_502:
	movl	%r13d, %eax
	shrl	$8, %eax
	leaq	336(%rsp), %rdx
	movq	112(%rdx), %rcx
	movq	%rcx, 304(%rsp)
	movups	96(%rdx), %xmm0
	movaps	%xmm0, 288(%rsp)
	movdqu	32(%rdx), %xmm0
	movdqu	48(%rdx), %xmm1
	movdqu	64(%rdx), %xmm2
	movdqu	80(%rdx), %xmm3
	movdqa	%xmm3, 272(%rsp)
	movdqa	%xmm2, 256(%rsp)
	movdqa	%xmm1, 240(%rsp)
	movdqa	%xmm0, 224(%rsp)
.LBB2_503:
	xorl	%ecx, %ecx
	movq	%rsi, 48(%rsp)
.LBB2_504:
	shlq	$16, %rcx
	movzbl	%al, %eax
	shll	$8, %eax
	orq	%rcx, %rax
	movzbl	%r13b, %ecx
	orq	%rax, %rcx
	movaps	224(%rsp), %xmm0
	movaps	240(%rsp), %xmm1
	movaps	256(%rsp), %xmm2
	movaps	272(%rsp), %xmm3
	movaps	%xmm2, 1152(%rsp)
	movaps	%xmm3, 1168(%rsp)
	movq	304(%rsp), %rax
	movdqa	288(%rsp), %xmm4
	movaps	%xmm0, 752(%rsp)
	movaps	%xmm1, 768(%rsp)
	movaps	%xmm2, 784(%rsp)
	movaps	%xmm3, 800(%rsp)
	movdqa	%xmm4, 816(%rsp)
	movq	%rax, 832(%rsp)
	movq	832(%rsp), %rax
	movq	%rax, 1104(%rsp)
	movaps	816(%rsp), %xmm0
	movaps	%xmm0, 1088(%rsp)
	movdqa	752(%rsp), %xmm0
	movdqa	768(%rsp), %xmm1
	movdqa	784(%rsp), %xmm2
	movdqa	800(%rsp), %xmm3
	movdqa	%xmm3, 1072(%rsp)
	movdqa	%xmm2, 1056(%rsp)
	movdqa	%xmm1, 1040(%rsp)
	movdqa	%xmm0, 1024(%rsp)
	testb	%r14b, %r14b
	jne	.LBB2_1542
	movq	8(%rsp), %r9
	movq	%r15, %r14
.LBB2_506:
	pxor	%xmm0, %xmm0
	movdqa	%xmm0, 512(%rsp)
	movdqa	%xmm0, 528(%rsp)
	movdqa	%xmm0, 544(%rsp)
	movdqa	%xmm0, 1120(%rsp)
	movdqa	%xmm0, 1136(%rsp)
	movq	$0, 1152(%rsp)
	movdqa	%xmm0, 656(%rsp)
	movdqa	%xmm0, 672(%rsp)
	movdqa	%xmm0, 688(%rsp)
	movdqa	%xmm0, 752(%rsp)
	movdqa	%xmm0, 768(%rsp)
	movq	$0, 784(%rsp)
	cmpq	$0, (%rbp)
	je	.LBB2_508
	movq	$0, (%rbp)
.LBB2_508:
	movzbl	%cl, %r12d
	testb	%r12b, %r12b
	movq	%r14, 56(%rsp)
	je	.LBB2_827
	movq	%rcx, 72(%rsp)
	movl	%ecx, %eax
	shrl	$8, %eax
	cmpl	$2, %r12d
	movq	%rsi, 40(%rsp)
	movl	%r12d, 36(%rsp)
	jne	.LBB2_512
	movzbl	%al, %r15d
	movb	$1, %bpl
	leaq	.LJTI2_13(%rip), %rax
	movslq	(%rax,%r15,4), %rcx
	addq	%rax, %rcx
	jmpq	*%rcx
.LBB2_511:
	movl	$1, %r15d
	jmp	.LBB2_693
	.p2align	4
.LBB2_512:
	movzbl	%al, %eax
	xorl	%ebp, %ebp
	leaq	.LJTI2_14(%rip), %rcx
	movslq	(%rcx,%rax,4), %rdx
	addq	%rcx, %rdx
	jmpq	*%rdx
.LBB2_513:
	movl	$1, %eax
	movb	$1, %bl
	testq	%rsi, %rsi
	jne	.LBB2_690
	jmp	.LBB2_811
.LBB2_514:
	cmpb	$1, %r12b
	jne	.LBB2_523
	shrl	$8, %r12d
	leaq	96(%rsp), %rcx
	movdqu	%xmm0, -8(%rcx)
	movl	$0, 44(%rcx)
	movl	$0, 41(%rcx)
	leaq	16(%rsp), %rax
	movq	%rax, 80(%rsp)
	movq	$0, 128(%rsp)
	movb	$0, 136(%rsp)
	movl	$32, 104(%rsp)
	movl	$0, 20(%rcx)
	movq	$0, 12(%rcx)
	movq	$-1, 120(%rsp)
	movb	$1, %bl
	movzbl	%r12b, %eax
	leaq	.LJTI2_10(%rip), %rcx
	movslq	(%rcx,%rax,4), %rax
	addq	%rcx, %rax
	jmpq	*%rax
.LBB2_516:
	leaq	.Lstatic.89(%rip), %r15
	movl	$15, %r14d
	jmp	.LBB2_594
.LBB2_517:
	movl	$22, %edi
	movl	$1, %esi
	callq	rattle_alloc@PLT
	testb	$1, %al
	je	.LBB2_528
	leaq	.Lstatic.58(%rip), %rax
	movq	%rdx, %rcx
	subq	%rax, %rcx
	cmpq	$21, %rcx
	ja	.LBB2_585
	movdqa	.LCPI2_25(%rip), %xmm0
	movdqu	%xmm0, (%rdx)
	movl	$1920296809, 16(%rdx)
	movq	%rdx, %r15
	movw	$25701, 20(%rdx)
	jmp	.LBB2_586
.LBB2_520:
	cmpb	$1, (%rsp)
	jne	.LBB2_502
	testq	%r12, %r12
	je	.LBB2_502
	movq	72(%rsp), %rdi
	jmp	.LBB2_501
.LBB2_523:
	leaq	96(%rsp), %rcx
	movdqu	%xmm0, -8(%rcx)
	movl	$0, 44(%rcx)
	movl	$0, 41(%rcx)
	leaq	16(%rsp), %rax
	movq	%rax, 80(%rsp)
	movq	$0, 128(%rsp)
	movb	$0, 136(%rsp)
	movl	$32, 104(%rsp)
	movl	$0, 20(%rcx)
	movq	$0, 12(%rcx)
	movq	$-1, 120(%rsp)
	movzbl	%r13b, %eax
	leaq	.LJTI2_9(%rip), %rcx
	movslq	(%rcx,%rax,4), %rax
	addq	%rcx, %rax
	jmpq	*%rax
.LBB2_524:
	leaq	.Lstatic.94(%rip), %r14
	movl	$20, %r15d
	jmp	.LBB2_958
.LBB2_525:
	movdqa	%xmm0, 608(%rsp)
	movdqa	%xmm0, 592(%rsp)
	movdqa	%xmm0, 576(%rsp)
	movdqa	%xmm0, 560(%rsp)
	movdqa	%xmm0, 544(%rsp)
	movdqa	%xmm0, 528(%rsp)
	movdqa	%xmm0, 512(%rsp)
	movq	$0, 624(%rsp)
	movl	$176, %edi
	movl	$8, %esi
	callq	rattle_alloc@PLT
	testb	$1, %al
	je	.LBB2_584
	movq	%rdx, %rbx
	leaq	.Lstatic.63(%rip), %rax
	movq	%rdx, %rcx
	subq	%rax, %rcx
	cmpq	$63, %rcx
	ja	.LBB2_880
	movups	.Lstatic.63(%rip), %xmm0
	movups	%xmm0, (%rbx)
	movups	.Lstatic.63+16(%rip), %xmm0
	movups	%xmm0, 16(%rbx)
	movups	.Lstatic.63+32(%rip), %xmm0
	movups	%xmm0, 32(%rbx)
	movups	.Lstatic.63+48(%rip), %xmm0
	movups	%xmm0, 48(%rbx)
	jmp	.LBB2_881
.LBB2_528:
	pxor	%xmm0, %xmm0
	movdqa	%xmm0, 288(%rsp)
	movdqa	%xmm0, 272(%rsp)
	movdqa	%xmm0, 256(%rsp)
	movdqa	%xmm0, 240(%rsp)
	movdqa	%xmm0, 224(%rsp)
	movq	$0, 304(%rsp)
	movb	$10, %r13b
	movb	$1, %r14b
	xorl	%eax, %eax
	xorl	%ecx, %ecx
	xorl	%r15d, %r15d
	xorl	%esi, %esi
	movq	$0, 48(%rsp)
	xorl	%r8d, %r8d
	jmp	.LBB2_504
.LBB2_529:
	movl	$3, %edi
	movl	$1, %esi
	callq	rattle_alloc@PLT
	testb	$1, %al
	je	.LBB2_534
	leaq	.Lstatic.55(%rip), %rax
	movq	%rdx, %rcx
	subq	%rax, %rcx
	cmpq	$2, %rcx
	ja	.LBB2_888
	movw	$31042, (%rdx)
	movq	%rdx, %r15
	movb	$101, 2(%rdx)
	jmp	.LBB2_889
.LBB2_532:
	movl	$2, %edi
	movl	$1, %esi
	callq	rattle_alloc@PLT
	testb	$1, %al
	je	.LBB2_534
	leaq	.Lstatic.54(%rip), %rax
	movq	%rdx, %rcx
	subq	%rax, %rcx
	cmpq	$1, %rcx
	movq	%rdx, %r15
	movw	$19279, (%rdx)
	leaq	336(%rsp), %rdx
	pxor	%xmm0, %xmm0
	movdqu	%xmm0, 104(%rdx)
	movdqu	%xmm0, 88(%rdx)
	movdqu	%xmm0, 72(%rdx)
	movdqu	%xmm0, 56(%rdx)
	movdqu	%xmm0, 40(%rdx)
	movdqu	%xmm0, 24(%rdx)
	movb	$1, %r13b
	movb	$7, %al
	movl	$2, %esi
	jmp	.LBB2_890
.LBB2_534:
	pxor	%xmm0, %xmm0
	leaq	336(%rsp), %rdx
	movdqu	%xmm0, 96(%rdx)
	movdqu	%xmm0, 80(%rdx)
	movdqu	%xmm0, 64(%rdx)
	movdqu	%xmm0, 48(%rdx)
	movdqu	%xmm0, 32(%rdx)
	movdqu	%xmm0, 16(%rdx)
	movdqu	%xmm0, (%rdx)
	movq	$0, 112(%rdx)
	movb	$1, %r14b
	movb	$10, %r13b
	xorl	%esi, %esi
	xorl	%r15d, %r15d
	xorl	%eax, %eax
	jmp	.LBB2_891
.LBB2_535:
	cmpq	$4, 72(%rsp)
	jne	.LBB2_557
	movq	(%rsp), %rax
	movl	(%rax), %eax
	movq	%rax, %rcx
	shlq	$32, %rcx
	orq	%rax, %rcx
	movabsq	$5712890092281414469, %rax
	cmpq	%rax, %rcx
	jne	.LBB2_557
	cmpq	$0, 56(%rsp)
	je	.LBB2_539
	movq	(%rsp), %rdi
	callq	rattle_dealloc@PLT
.LBB2_539:
	pxor	%xmm0, %xmm0
	leaq	336(%rsp), %rdx
	movdqu	%xmm0, 104(%rdx)
	movdqu	%xmm0, 88(%rdx)
	movdqu	%xmm0, 72(%rdx)
	movdqu	%xmm0, 56(%rdx)
	movdqu	%xmm0, 40(%rdx)
	movdqu	%xmm0, 24(%rdx)
	movb	$1, %r13b
	movb	$7, %al
	xorl	%r8d, %r8d
	movq	%r12, %r15
	xorl	%r14d, %r14d
	movq	40(%rsp), %rsi
	jmp	.LBB2_907
.LBB2_540:
	movl	$72, %edi
	movl	$8, %esi
	callq	rattle_alloc@PLT
	testb	$1, %al
	je	.LBB2_587
	movq	%rdx, %r14
	movl	$5, %edi
	movl	$1, %esi
	callq	rattle_alloc@PLT
	testb	$1, %al
	movq	%r14, %r15
	je	.LBB2_892
	leaq	.Lstatic.76(%rip), %rbx
	negq	%rbx
	leaq	(%rdx,%rbx), %rax
	addq	$-48, %rax
	cmpq	$4, %rax
	ja	.LBB2_922
	movl	$1886152008, (%rdx)
	movb	$58, 4(%rdx)
	jmp	.LBB2_923
.LBB2_544:
	testl	$65536, %r13d
	movl	$28, %eax
	movl	$21, %r12d
	cmoveq	%rax, %r12
	leaq	.Lstatic.80(%rip), %r15
	leaq	.Lstatic.79(%rip), %rbx
	movq	%rbx, %r14
	cmoveq	%r15, %r14
	movl	$1, %esi
	movq	%r12, %rdi
	callq	rattle_alloc@PLT
	testb	$1, %al
	je	.LBB2_556
	movq	%r15, %rcx
	movq	%rdx, %rax
	subq	%r14, %rax
	cmpq	%r12, %rax
	movq	%rdx, %r15
	jae	.LBB2_896
	movq	%rdx, %rax
	subq	%r14, %rax
	cmpq	$7, %rax
	ja	.LBB2_926
	xorl	%eax, %eax
	jmp	.LBB2_1066
.LBB2_548:
	testl	$65280, %r13d
	leaq	.Lstatic.77(%rip), %rax
	leaq	.Lstatic.78(%rip), %r14
	cmoveq	%rax, %r14
	movl	$26, %eax
	movl	$38, %ebx
	cmoveq	%rax, %rbx
	movl	$1, %esi
	movq	%rbx, %rdi
	callq	rattle_alloc@PLT
	testb	$1, %al
	je	.LBB2_556
	movq	%rdx, %rax
	subq	%r14, %rax
	cmpq	%rbx, %rax
	movq	%rdx, %r15
	jae	.LBB2_588
	movq	%rdx, %rax
	subq	%r14, %rax
	cmpq	$16, %rax
	jae	.LBB2_928
	movq	%rbx, %r8
	xorl	%eax, %eax
	jmp	.LBB2_1073
.LBB2_552:
	testl	$65280, %r13d
	leaq	.Lstatic.81(%rip), %rax
	leaq	.Lstatic.82(%rip), %r14
	cmoveq	%rax, %r14
	movl	$22, %eax
	movl	$37, %ebx
	cmoveq	%rax, %rbx
	movl	$1, %esi
	movq	%rbx, %rdi
	callq	rattle_alloc@PLT
	testb	$1, %al
	je	.LBB2_556
	movq	%rdx, %rax
	subq	%r14, %rax
	cmpq	%rbx, %rax
	movq	%rdx, %r15
	jae	.LBB2_588
	movq	%rdx, %rax
	subq	%r14, %rax
	cmpq	$15, %rax
	ja	.LBB2_934
	xorl	%eax, %eax
	jmp	.LBB2_939
.LBB2_556:
	pxor	%xmm0, %xmm0
	movdqa	%xmm0, 160(%rsp)
	movdqa	%xmm0, 144(%rsp)
	movdqa	%xmm0, 128(%rsp)
	movdqa	%xmm0, 112(%rsp)
	movdqa	%xmm0, 96(%rsp)
	movdqa	%xmm0, 80(%rsp)
	movl	$10, %r13d
	movb	$1, %r14b
	xorl	%r15d, %r15d
	xorl	%esi, %esi
	jmp	.LBB2_1080
.LBB2_557:
	movl	$15, %edi
	movl	$1, %esi
	callq	rattle_alloc@PLT
	testb	$1, %al
	je	.LBB2_589
	leaq	.Lstatic.88(%rip), %rax
	movq	%rdx, %rcx
	subq	%rax, %rcx
	movabsq	$7813865651771305806, %rax
	cmpq	$14, %rcx
	ja	.LBB2_901
	movq	%rax, (%rdx)
	movl	$1852140901, 8(%rdx)
	movw	$25972, 12(%rdx)
	movq	%rdx, %r15
	movb	$100, 14(%rdx)
	jmp	.LBB2_902
.LBB2_560:
	cmpb	$1, %r12b
	jne	.LBB2_502
	movq	40(%rsp), %rax
	lock		decq	(%rax)
	jne	.LBB2_502
	jmp	.LBB2_575
.LBB2_562:
	cmpq	$0, 56(%rsp)
	je	.LBB2_564
	movq	(%rsp), %rdi
	movq	%rsi, 40(%rsp)
	movq	%r8, %rbx
	callq	rattle_dealloc@PLT
	movq	%rbx, %r8
	movq	40(%rsp), %rsi
.LBB2_564:
	cmpq	$0, 48(%rsp)
	je	.LBB2_502
	movq	%r12, %rdi
	jmp	.LBB2_501
.LBB2_566:
	cmpb	$1, %r12b
	jne	.LBB2_502
	movq	40(%rsp), %rax
	lock		decq	(%rax)
	jne	.LBB2_502
	jmp	.LBB2_575
.LBB2_568:
	cmpb	$1, (%rsp)
	jne	.LBB2_502
	movzbl	40(%rsp), %eax
	cmpl	$1, %eax
	jne	.LBB2_502
	movq	48(%rsp), %rax
	lock		decq	(%rax)
	jne	.LBB2_502
	movq	48(%rsp), %rdi
	movq	8(%rdi), %rax
	movq	%rax, 40(%rsp)
	movq	24(%rdi), %rax
	movq	%rax, (%rsp)
	movq	%rsi, %r12
	movq	%r8, %rbx
	callq	rattle_dealloc@PLT
	movq	%rbx, %r8
	movq	%r12, %rsi
	cmpq	$0, (%rsp)
	je	.LBB2_502
	movq	40(%rsp), %rdi
	jmp	.LBB2_577
.LBB2_573:
	cmpb	$1, %r12b
	jne	.LBB2_502
	movq	40(%rsp), %rax
	lock		decq	(%rax)
	jne	.LBB2_502
.LBB2_575:
	movq	40(%rsp), %rdi
	movq	8(%rdi), %rax
	movq	%rax, 48(%rsp)
	movq	24(%rdi), %rax
	movq	%rax, (%rsp)
	movq	%rsi, %r12
	movq	%r8, %rbx
	callq	rattle_dealloc@PLT
	movq	%rbx, %r8
	movq	%r12, %rsi
	cmpq	$0, (%rsp)
	je	.LBB2_502
	movq	48(%rsp), %rdi
.LBB2_577:
	callq	rattle_dealloc@PLT
	movq	%rbx, %r8
	movq	%r12, %rsi
	jmp	.LBB2_502
.LBB2_578:
	cmpb	$1, (%rsp)
	jne	.LBB2_581
	testq	%r12, %r12
	je	.LBB2_581
	movq	72(%rsp), %rdi
	movq	%rsi, %rbx
	movq	%r8, %r12
	callq	rattle_dealloc@PLT
	movq	%r12, %r8
	movq	%rbx, %rsi
.LBB2_581:
	cmpb	$1, 40(%rsp)
	setne	%al
	orb	36(%rsp), %al
	testb	$1, %al
	jne	.LBB2_502
	movq	48(%rsp), %rdi
	jmp	.LBB2_501
.LBB2_583:
	movq	336(%rsp), %rcx
	movq	%rcx, (%rsp)
	movq	344(%rsp), %rcx
	movq	352(%rsp), %r15
	movl	%ebx, %r10d
	movq	%rcx, %rbx
	jmp	.LBB2_191
.LBB2_584:
	leaq	336(%rsp), %rcx
	pxor	%xmm0, %xmm0
	movdqu	%xmm0, 96(%rcx)
	movdqu	%xmm0, 80(%rcx)
	movdqu	%xmm0, 64(%rcx)
	movdqu	%xmm0, 48(%rcx)
	movdqu	%xmm0, 32(%rcx)
	movdqu	%xmm0, 16(%rcx)
	movdqu	%xmm0, (%rcx)
	movq	$0, 112(%rcx)
	movb	$1, %r14b
	movb	$10, %r13b
	xorl	%r8d, %r8d
	movq	$0, 48(%rsp)
	xorl	%esi, %esi
	xorl	%r15d, %r15d
	xorl	%eax, %eax
	jmp	.LBB2_1267
.LBB2_585:
	movdqu	.Lstatic.58(%rip), %xmm0
	movdqu	%xmm0, (%rdx)
	movabsq	$7234314225012270702, %rax
	movq	%rdx, %r15
	movq	%rax, 14(%rdx)
.LBB2_586:
	pxor	%xmm0, %xmm0
	movdqa	%xmm0, 288(%rsp)
	movdqa	%xmm0, 272(%rsp)
	movdqa	%xmm0, 256(%rsp)
	movdqa	%xmm0, 240(%rsp)
	movdqa	%xmm0, 224(%rsp)
	movq	$0, 304(%rsp)
	movl	$22, %esi
	movb	$36, %al
	movb	$1, %r13b
	xorl	%r14d, %r14d
	xorl	%ecx, %ecx
	movl	$22, %edx
	movq	%rdx, 48(%rsp)
	xorl	%r8d, %r8d
	jmp	.LBB2_504
.LBB2_587:
	pxor	%xmm0, %xmm0
	movdqa	%xmm0, 736(%rsp)
	movdqa	%xmm0, 720(%rsp)
	movdqa	%xmm0, 704(%rsp)
	movdqa	%xmm0, 688(%rsp)
	movdqa	%xmm0, 672(%rsp)
	movdqa	%xmm0, 656(%rsp)
	jmp	.LBB2_894
.LBB2_588:
	movq	%rdx, %rdi
	movq	%r14, %rsi
	movq	%rbx, %rdx
	callq	memcpy@PLT
	movq	%rbx, %rsi
	jmp	.LBB2_1078
.LBB2_589:
	pxor	%xmm0, %xmm0
	movdqa	%xmm0, 160(%rsp)
	movdqa	%xmm0, 144(%rsp)
	movdqa	%xmm0, 128(%rsp)
	movdqa	%xmm0, 112(%rsp)
	movdqa	%xmm0, 96(%rsp)
	movdqa	%xmm0, 80(%rsp)
	movl	$10, %r13d
	movb	$1, %r14b
	xorl	%r15d, %r15d
	xorl	%ebx, %ebx
	leaq	336(%rsp), %rdx
	cmpq	$0, 48(%rsp)
	jne	.LBB2_903
	jmp	.LBB2_904
.LBB2_590:
	leaq	.Lstatic.91(%rip), %r15
	movl	$19, %r14d
	jmp	.LBB2_593
.LBB2_591:
	leaq	.Lstatic.92(%rip), %r15
	movl	$13, %r14d
	jmp	.LBB2_594
.LBB2_592:
	leaq	.Lstatic.90(%rip), %r15
	movl	$32, %r14d
.LBB2_593:
	xorl	%ebx, %ebx
.LBB2_594:
	leaq	80(%rsp), %rdi
	movq	%r14, %rsi
	callq	"std_alloc::vec::Vec::grow_amortized::<#1908c79f2a33ade2>"
	testb	%al, %al
	je	.LBB2_1536
	movq	80(%rsp), %rax
	movq	88(%rsp), %rsi
	movq	%rax, %r12
	leaq	(%rax,%rsi), %rdi
	movq	%rdi, %rax
	subq	%r15, %rax
	cmpq	%r14, %rax
	jae	.LBB2_598
	cmpq	$16, %rax
	jae	.LBB2_599
	xorl	%eax, %eax
	jmp	.LBB2_915
.LBB2_598:
	movq	%rsi, %rbx
	movq	%r15, %rsi
	movq	%r14, %rdx
	callq	memcpy@PLT
	movq	%rbx, %rsi
	jmp	.LBB2_921
.LBB2_599:
	testb	%bl, %bl
	je	.LBB2_908
	xorl	%eax, %eax
	jmp	.LBB2_912
.LBB2_601:
	movl	$550, %r15d
	jmp	.LBB2_692
.LBB2_602:
	movl	$503, %r15d
	jmp	.LBB2_692
.LBB2_603:
	movl	$3, %eax
	movl	$550, %ebp
	xorl	%ebx, %ebx
	testq	%rsi, %rsi
	je	.LBB2_811
.LBB2_690:
	movq	%rsi, %rdx
	addq	$3, %rdx
	movq	$-1, %rcx
	cmovaeq	%rdx, %rcx
	jmp	.LBB2_812
.LBB2_604:
	movl	$501, %r15d
	jmp	.LBB2_692
.LBB2_605:
	movl	$502, %r15d
	jmp	.LBB2_692
.LBB2_606:
	movl	$3, %eax
	movl	$503, %ebp
	xorl	%ebx, %ebx
	testq	%rsi, %rsi
	jne	.LBB2_690
.LBB2_811:
	movl	$2, %ecx
.LBB2_812:
	addq	%rax, %rcx
	movq	$-1, %rsi
	cmovaeq	%rcx, %rsi
	cmpq	16(%r9), %rsi
	ja	.LBB2_833
.LBB2_813:
	testb	%bl, %bl
	je	.LBB2_816
	movq	8(%r9), %r15
	movq	16(%r9), %rax
	cmpq	%r15, %rax
	je	.LBB2_874
.LBB2_815:
	orb	$48, %bpl
	movq	(%r9), %r12
	movb	%bpl, (%r12,%r15)
	incq	%r15
	jmp	.LBB2_818
.LBB2_816:
	movq	8(%r9), %rcx
	movq	16(%r9), %rax
	movq	%rax, %rdx
	subq	%rcx, %rdx
	cmpq	$2, %rdx
	jbe	.LBB2_876
.LBB2_817:
	imull	$656, %ebp, %edx
	shrl	$16, %edx
	orb	$48, %dl
	imull	$6554, %ebp, %esi
	shrl	$16, %esi
	imull	$103, %esi, %edi
	shrl	$9, %edi
	andl	$-2, %edi
	leal	(%rdi,%rdi,4), %edi
	movl	%esi, %r8d
	subb	%dil, %r8b
	orb	$48, %r8b
	addl	%esi, %esi
	leal	(%rsi,%rsi,4), %esi
	subl	%esi, %ebp
	orb	$48, %bpl
	leaq	3(%rcx), %r15
	movq	(%r9), %r12
	movb	%dl, (%r12,%rcx)
	movb	%r8b, 1(%r12,%rcx)
	movb	%bpl, 2(%r12,%rcx)
.LBB2_818:
	movq	%r12, (%r9)
	movq	%r15, 8(%r9)
	movq	%rax, 16(%r9)
	movq	40(%rsp), %rsi
	testq	%rsi, %rsi
	leaq	8(%r9), %r13
	je	.LBB2_824
	cmpq	%r15, %rax
	je	.LBB2_868
.LBB2_820:
	movb	$32, (%r12,%r15)
	incq	%r15
	movq	%r15, 8(%r9)
	movq	16(%r9), %rbx
	movq	%rbx, %rax
	subq	%r15, %rax
	cmpq	%rax, %rsi
	ja	.LBB2_870
.LBB2_821:
	movq	(%r9), %r12
	pxor	%xmm0, %xmm0
	movdqu	%xmm0, (%r13)
	leaq	(%r12,%r15), %rdi
	movq	%rdi, %rax
	subq	%r14, %rax
	cmpq	%rsi, %rax
	jae	.LBB2_828
	cmpq	$4, %rsi
	jb	.LBB2_823
	cmpq	$32, %rax
	jae	.LBB2_831
.LBB2_823:
	xorl	%eax, %eax
.LBB2_841:
	movq	%rsi, %rdx
	movq	%rax, %rcx
	andq	$3, %rdx
	je	.LBB2_844
	movq	%rax, %rcx
	.p2align	4
.LBB2_843:
	movzbl	(%r14,%rcx), %esi
	movb	%sil, (%rdi,%rcx)
	incq	%rcx
	decq	%rdx
	jne	.LBB2_843
.LBB2_844:
	movq	40(%rsp), %rsi
	subq	%rsi, %rax
	cmpq	$-4, %rax
	ja	.LBB2_847
	leaq	(%r12,%r15), %rax
	addq	$3, %rax
	.p2align	4
.LBB2_846:
	movzbl	(%r14,%rcx), %edx
	movb	%dl, -3(%rax,%rcx)
	movzbl	1(%r14,%rcx), %edx
	movb	%dl, -2(%rax,%rcx)
	movzbl	2(%r14,%rcx), %edx
	movb	%dl, -1(%rax,%rcx)
	movzbl	3(%r14,%rcx), %edx
	movb	%dl, (%rax,%rcx)
	addq	$4, %rcx
	cmpq	%rcx, %rsi
	jne	.LBB2_846
	jmp	.LBB2_847
.LBB2_824:
	movq	%rax, %rcx
	subq	%r15, %rcx
	cmpq	$1, %rcx
	jbe	.LBB2_878
.LBB2_825:
	leaq	(%r12,%r15), %rcx
	leaq	.Lstatic.106(%rip), %rdx
	movq	%rcx, %rsi
	subq	%rdx, %rsi
	cmpq	$1, %rsi
	movw	$2573, (%rcx)
	addq	$2, %r15
	movq	%r12, (%r9)
	movq	%r15, 8(%r9)
	movq	%rax, 16(%r9)
	movq	$0, 40(%rsp)
	testq	%r15, %r15
	jne	.LBB2_849
	.p2align	4
.LBB2_826:
	movq	8(%rsp), %r9
	movq	40(%rsp), %rsi
	movq	72(%rsp), %rcx
	movl	36(%rsp), %r12d
.LBB2_827:
	pxor	%xmm0, %xmm0
	movdqa	%xmm0, 544(%rsp)
	movdqa	%xmm0, 528(%rsp)
	movdqa	%xmm0, 512(%rsp)
	movdqa	%xmm0, 1120(%rsp)
	movdqa	%xmm0, 1136(%rsp)
	movq	$0, 1152(%rsp)
	movb	$1, %bpl
	movq	$0, (%rsp)
	xorl	%r14d, %r14d
	xorl	%r13d, %r13d
	movq	$0, 648(%rsp)
	xorl	%ebx, %ebx
	movq	$0, 64(%rsp)
	movq	$0, 504(%rsp)
	movq	$0, 456(%rsp)
	movq	$0, 472(%rsp)
	xorl	%r15d, %r15d
	movq	$0, 464(%rsp)
	movq	$0, 640(%rsp)
	jmp	.LBB2_856
.LBB2_828:
	movq	%r14, %rsi
	movq	40(%rsp), %rdx
	callq	memmove@PLT
	movq	40(%rsp), %rsi
	movq	8(%rsp), %r9
.LBB2_847:
	addq	%rsi, %r15
	movq	%r12, (%r9)
	movq	%r15, 8(%r9)
	movq	%rbx, 16(%r9)
	movq	%rbx, %rax
	subq	%r15, %rax
	cmpq	$1, %rax
	ja	.LBB2_848
	movl	$2, %esi
	movq	%r9, %rdi
	movq	%r9, %r14
	callq	"std_alloc::vec::Vec::grow_amortized::<#79675877bf17c286>"
	testb	%al, %al
	jne	.LBB2_873
	jmp	.LBB2_1549
.LBB2_831:
	cmpq	$32, %rsi
	jae	.LBB2_834
	xorl	%eax, %eax
	jmp	.LBB2_838
.LBB2_833:
	movq	%r9, %rdi
	callq	"std_alloc::vec::Vec::grow_amortized::<#79675877bf17c286>"
	movq	8(%rsp), %r9
	testb	%al, %al
	jne	.LBB2_813
	jmp	.LBB2_1545
.LBB2_834:
	movq	%rsi, %rax
	andq	$-32, %rax
	leaq	(%r12,%r15), %rcx
	addq	$16, %rcx
	xorl	%edx, %edx
	.p2align	4
.LBB2_835:
	movdqu	(%r14,%rdx), %xmm0
	movdqu	16(%r14,%rdx), %xmm1
	movdqu	%xmm0, -16(%rcx,%rdx)
	movdqu	%xmm1, (%rcx,%rdx)
	addq	$32, %rdx
	cmpq	%rdx, %rax
	jne	.LBB2_835
	cmpq	%rax, %rsi
	je	.LBB2_847
	testb	$28, %sil
	je	.LBB2_841
.LBB2_838:
	movq	%rax, %rcx
	movq	%rsi, %rax
	andq	$-4, %rax
	.p2align	4
.LBB2_839:
	movl	(%r14,%rcx), %edx
	movl	%edx, (%rdi,%rcx)
	addq	$4, %rcx
	cmpq	%rcx, %rax
	jne	.LBB2_839
	cmpq	%rax, %rsi
	je	.LBB2_847
	jmp	.LBB2_841
.LBB2_868:
	movl	$1, %esi
	movq	%r9, %rdi
	movq	%r9, %rbx
	callq	"std_alloc::vec::Vec::grow_amortized::<#79675877bf17c286>"
	testb	%al, %al
	je	.LBB2_1550
	movq	(%rbx), %r12
	movq	8(%rbx), %r15
	movq	%rbx, %r9
	movq	40(%rsp), %rsi
	jmp	.LBB2_820
.LBB2_870:
	movq	%r9, %rdi
	movq	%r9, %r14
	callq	"std_alloc::vec::Vec::grow_amortized::<#79675877bf17c286>"
	testb	%al, %al
	je	.LBB2_1549
	movq	8(%r14), %r15
	movq	16(%r14), %rbx
	movq	%r14, %r9
	movq	56(%rsp), %r14
	movq	40(%rsp), %rsi
	jmp	.LBB2_821
.LBB2_874:
	movl	$1, %esi
	movq	%r9, %rdi
	movq	%r9, %rbx
	callq	"std_alloc::vec::Vec::grow_amortized::<#79675877bf17c286>"
	testb	%al, %al
	je	.LBB2_1545
	movq	8(%rbx), %r15
	movq	16(%rbx), %rax
	movq	%rbx, %r9
	jmp	.LBB2_815
.LBB2_876:
	movl	$3, %esi
	movq	%r9, %rdi
	movq	%r9, %rbx
	callq	"std_alloc::vec::Vec::grow_amortized::<#79675877bf17c286>"
	testb	%al, %al
	je	.LBB2_1545
	movq	8(%rbx), %rcx
	movq	16(%rbx), %rax
	movq	%rbx, %r9
	jmp	.LBB2_817
.LBB2_878:
	movl	$2, %esi
	movq	%r9, %rdi
	movq	%r9, %rbx
	callq	"std_alloc::vec::Vec::grow_amortized::<#79675877bf17c286>"
	testb	%al, %al
	je	.LBB2_1553
	movq	(%rbx), %r12
	movq	8(%rbx), %r15
	movq	16(%rbx), %rax
	movq	%rbx, %r9
	jmp	.LBB2_825
.LBB2_607:
	movl	$3, %eax
	movl	$501, %ebp
	xorl	%ebx, %ebx
	testq	%rsi, %rsi
	jne	.LBB2_690
	jmp	.LBB2_811
.LBB2_608:
	movl	$350, %r15d
	jmp	.LBB2_692
.LBB2_609:
	movl	$500, %r15d
	jmp	.LBB2_692
.LBB2_610:
	movl	$3, %eax
	movl	$502, %ebp
	xorl	%ebx, %ebx
	testq	%rsi, %rsi
	jne	.LBB2_690
	jmp	.LBB2_811
.LBB2_611:
	movl	$225, %r15d
	jmp	.LBB2_692
.LBB2_612:
	movl	$551, %r15d
	jmp	.LBB2_692
.LBB2_613:
	movl	$3, %eax
	movl	$350, %ebp
	xorl	%ebx, %ebx
	testq	%rsi, %rsi
	jne	.LBB2_690
	jmp	.LBB2_811
.LBB2_614:
	movl	$3, %eax
	movl	$500, %ebp
	xorl	%ebx, %ebx
	testq	%rsi, %rsi
	jne	.LBB2_690
	jmp	.LBB2_811
.LBB2_615:
	movl	$220, %r15d
	jmp	.LBB2_692
.LBB2_616:
	movl	$452, %r15d
	jmp	.LBB2_692
.LBB2_617:
	movl	$3, %eax
	movl	$225, %ebp
	xorl	%ebx, %ebx
	testq	%rsi, %rsi
	jne	.LBB2_690
	jmp	.LBB2_811
.LBB2_618:
	movl	$213, %r15d
	jmp	.LBB2_692
.LBB2_619:
	movl	$3, %eax
	movl	$551, %ebp
	xorl	%ebx, %ebx
	testq	%rsi, %rsi
	jne	.LBB2_690
	jmp	.LBB2_811
.LBB2_620:
	movl	$3, %eax
	movl	$220, %ebp
	xorl	%ebx, %ebx
	testq	%rsi, %rsi
	jne	.LBB2_690
	jmp	.LBB2_811
.LBB2_621:
	movl	$3, %eax
	movl	$452, %ebp
	xorl	%ebx, %ebx
	testq	%rsi, %rsi
	jne	.LBB2_690
	jmp	.LBB2_811
.LBB2_622:
	movl	$120, %r15d
	jmp	.LBB2_692
.LBB2_623:
	movl	$532, %r15d
	jmp	.LBB2_692
.LBB2_624:
	movl	$214, %r15d
	jmp	.LBB2_692
.LBB2_625:
	movl	$211, %r15d
	jmp	.LBB2_692
.LBB2_626:
	movl	$331, %r15d
	jmp	.LBB2_692
.LBB2_627:
	movl	$257, %r15d
	jmp	.LBB2_692
.LBB2_628:
	movl	$2, %r15d
	jmp	.LBB2_693
.LBB2_629:
	movl	$221, %r15d
	jmp	.LBB2_692
.LBB2_630:
	movl	$110, %r15d
	jmp	.LBB2_692
.LBB2_631:
	movl	$3, %eax
	movl	$213, %ebp
	xorl	%ebx, %ebx
	testq	%rsi, %rsi
	jne	.LBB2_690
	jmp	.LBB2_811
.LBB2_632:
	movl	$200, %r15d
	jmp	.LBB2_692
.LBB2_633:
	movl	$450, %r15d
	jmp	.LBB2_692
.LBB2_634:
	movl	$226, %r15d
	jmp	.LBB2_692
.LBB2_635:
	movl	$3, %eax
	movl	$120, %ebp
	xorl	%ebx, %ebx
	testq	%rsi, %rsi
	jne	.LBB2_690
	jmp	.LBB2_811
.LBB2_636:
	movl	$3, %eax
	movl	$532, %ebp
	xorl	%ebx, %ebx
	testq	%rsi, %rsi
	jne	.LBB2_690
	jmp	.LBB2_811
.LBB2_637:
	movl	$533, %r15d
	jmp	.LBB2_692
.LBB2_638:
	movl	$230, %r15d
	jmp	.LBB2_692
.LBB2_639:
	movl	$125, %r15d
	jmp	.LBB2_692
.LBB2_640:
	movl	$3, %eax
	movl	$214, %ebp
	xorl	%ebx, %ebx
	testq	%rsi, %rsi
	jne	.LBB2_690
	jmp	.LBB2_811
.LBB2_641:
	movl	$232, %r15d
	jmp	.LBB2_692
.LBB2_642:
	movl	$215, %r15d
	jmp	.LBB2_692
.LBB2_643:
	movl	$150, %r15d
	jmp	.LBB2_692
.LBB2_644:
	movl	$3, %eax
	movl	$211, %ebp
	xorl	%ebx, %ebx
	testq	%rsi, %rsi
	jne	.LBB2_690
	jmp	.LBB2_811
.LBB2_645:
	movl	$227, %r15d
	jmp	.LBB2_692
.LBB2_646:
	movl	$3, %eax
	movl	$331, %ebp
	xorl	%ebx, %ebx
	testq	%rsi, %rsi
	jne	.LBB2_690
	jmp	.LBB2_811
.LBB2_647:
	movl	$212, %r15d
	jmp	.LBB2_692
.LBB2_648:
	movl	$202, %r15d
	jmp	.LBB2_692
.LBB2_649:
	movl	$3, %eax
	movl	$257, %ebp
	xorl	%ebx, %ebx
	testq	%rsi, %rsi
	jne	.LBB2_690
	jmp	.LBB2_811
.LBB2_650:
	movl	$1, %eax
	movb	$1, %bl
	movl	$2, %ebp
	testq	%rsi, %rsi
	jne	.LBB2_690
	jmp	.LBB2_811
.LBB2_651:
	movl	$426, %r15d
	jmp	.LBB2_692
.LBB2_652:
	movl	$451, %r15d
	jmp	.LBB2_692
.LBB2_653:
	movl	$3, %eax
	movl	$221, %ebp
	xorl	%ebx, %ebx
	testq	%rsi, %rsi
	jne	.LBB2_690
	jmp	.LBB2_811
.LBB2_654:
	movl	$110, %ebp
	xorl	%ebx, %ebx
	testq	%rsi, %rsi
	jne	.LBB2_690
	jmp	.LBB2_811
.LBB2_655:
	movl	$3, %eax
	movl	$200, %ebp
	xorl	%ebx, %ebx
	testq	%rsi, %rsi
	jne	.LBB2_690
	jmp	.LBB2_811
.LBB2_656:
	movl	$1, %eax
	movb	$1, %bl
	movl	$1, %ebp
	testq	%rsi, %rsi
	jne	.LBB2_690
	jmp	.LBB2_811
.LBB2_657:
	movl	$3, %eax
	movl	$450, %ebp
	xorl	%ebx, %ebx
	testq	%rsi, %rsi
	jne	.LBB2_690
	jmp	.LBB2_811
.LBB2_658:
	movl	$3, %eax
	movl	$226, %ebp
	xorl	%ebx, %ebx
	testq	%rsi, %rsi
	jne	.LBB2_690
	jmp	.LBB2_811
.LBB2_659:
	movl	$552, %r15d
	jmp	.LBB2_692
.LBB2_660:
	movl	$3, %eax
	movl	$533, %ebp
	xorl	%ebx, %ebx
	testq	%rsi, %rsi
	jne	.LBB2_690
	jmp	.LBB2_811
.LBB2_661:
	movl	$3, %eax
	movl	$230, %ebp
	xorl	%ebx, %ebx
	testq	%rsi, %rsi
	jne	.LBB2_690
	jmp	.LBB2_811
.LBB2_662:
	movl	$3, %eax
	movl	$125, %ebp
	xorl	%ebx, %ebx
	testq	%rsi, %rsi
	jne	.LBB2_690
	jmp	.LBB2_811
.LBB2_663:
	movl	$3, %eax
	movl	$232, %ebp
	xorl	%ebx, %ebx
	testq	%rsi, %rsi
	jne	.LBB2_690
	jmp	.LBB2_811
.LBB2_664:
	movl	$3, %eax
	movl	$215, %ebp
	xorl	%ebx, %ebx
	testq	%rsi, %rsi
	jne	.LBB2_690
	jmp	.LBB2_811
.LBB2_665:
	movl	$3, %eax
	movl	$150, %ebp
	xorl	%ebx, %ebx
	testq	%rsi, %rsi
	jne	.LBB2_690
	jmp	.LBB2_811
.LBB2_666:
	movl	$234, %r15d
	jmp	.LBB2_692
.LBB2_667:
	movl	$3, %eax
	movl	$227, %ebp
	xorl	%ebx, %ebx
	testq	%rsi, %rsi
	jne	.LBB2_690
	jmp	.LBB2_811
.LBB2_668:
	movl	$3, %eax
	movl	$212, %ebp
	xorl	%ebx, %ebx
	testq	%rsi, %rsi
	jne	.LBB2_690
	jmp	.LBB2_811
.LBB2_669:
	movl	$3, %eax
	movl	$202, %ebp
	xorl	%ebx, %ebx
	testq	%rsi, %rsi
	jne	.LBB2_690
	jmp	.LBB2_811
.LBB2_670:
	movl	$3, %eax
	movl	$426, %ebp
	xorl	%ebx, %ebx
	testq	%rsi, %rsi
	jne	.LBB2_690
	jmp	.LBB2_811
.LBB2_671:
	movl	$3, %eax
	movl	$451, %ebp
	xorl	%ebx, %ebx
	testq	%rsi, %rsi
	jne	.LBB2_690
	jmp	.LBB2_811
.LBB2_672:
	movl	$530, %r15d
	jmp	.LBB2_692
.LBB2_673:
	movl	$229, %r15d
	jmp	.LBB2_692
.LBB2_674:
	movl	$534, %r15d
	jmp	.LBB2_692
.LBB2_675:
	movl	$250, %r15d
	jmp	.LBB2_692
.LBB2_676:
	movl	$421, %r15d
	jmp	.LBB2_692
.LBB2_677:
	movl	$425, %r15d
	jmp	.LBB2_692
.LBB2_678:
	movl	$3, %eax
	movl	$552, %ebp
	xorl	%ebx, %ebx
	testq	%rsi, %rsi
	jne	.LBB2_690
	jmp	.LBB2_811
.LBB2_679:
	movl	$3, %eax
	movl	$234, %ebp
	xorl	%ebx, %ebx
	testq	%rsi, %rsi
	jne	.LBB2_690
	jmp	.LBB2_811
.LBB2_680:
	movl	$504, %r15d
	jmp	.LBB2_692
.LBB2_681:
	movl	$3, %eax
	movl	$530, %ebp
	xorl	%ebx, %ebx
	testq	%rsi, %rsi
	jne	.LBB2_690
	jmp	.LBB2_811
.LBB2_682:
	movl	$3, %eax
	movl	$229, %ebp
	xorl	%ebx, %ebx
	testq	%rsi, %rsi
	jne	.LBB2_690
	jmp	.LBB2_811
.LBB2_683:
	movl	$332, %r15d
	jmp	.LBB2_692
.LBB2_684:
	movl	$3, %eax
	movl	$534, %ebp
	xorl	%ebx, %ebx
	testq	%rsi, %rsi
	jne	.LBB2_690
	jmp	.LBB2_811
.LBB2_685:
	movl	$3, %eax
	movl	$250, %ebp
	xorl	%ebx, %ebx
	testq	%rsi, %rsi
	jne	.LBB2_690
	jmp	.LBB2_811
.LBB2_686:
	movl	$3, %eax
	movl	$421, %ebp
	xorl	%ebx, %ebx
	testq	%rsi, %rsi
	jne	.LBB2_690
	jmp	.LBB2_811
.LBB2_687:
	movl	$3, %eax
	movl	$425, %ebp
	xorl	%ebx, %ebx
	testq	%rsi, %rsi
	jne	.LBB2_690
	jmp	.LBB2_811
.LBB2_688:
	movl	$3, %eax
	movl	$504, %ebp
	xorl	%ebx, %ebx
	testq	%rsi, %rsi
	jne	.LBB2_690
	jmp	.LBB2_811
.LBB2_689:
	movl	$3, %eax
	movl	$332, %ebp
	xorl	%ebx, %ebx
	testq	%rsi, %rsi
	jne	.LBB2_690
	jmp	.LBB2_811
.LBB2_691:
	movl	$553, %r15d
	.p2align	4
.LBB2_692:
	xorl	%ebp, %ebp
.LBB2_693:
	testq	%rsi, %rsi
	je	.LBB2_702
	leaq	-1(%rsi), %r10
	leaq	(%r10,%r10,2), %rax
	movq	(%r14,%rax,8), %rcx
	movq	%rcx, 464(%rsp)
	movq	8(%r14,%rax,8), %r13
	movl	%ebp, %eax
	xorb	$1, %al
	movzbl	%al, %eax
	leaq	1(,%rax,2), %rcx
	movq	%r13, %rsi
	addq	$3, %rsi
	movq	$-1, %rdx
	cmovbq	%rdx, %rsi
	addq	%rcx, %rsi
	cmovbq	%rdx, %rsi
	testq	%r10, %r10
	je	.LBB2_703
	leaq	8(%r14), %rdx
	xorl	%ecx, %ecx
	movq	%r10, %rdi
	jmp	.LBB2_698
	.p2align	4
.LBB2_696:
	addq	$2, %r8
.LBB2_697:
	movq	$-1, %r9
	cmovaeq	%r8, %r9
	addq	%r9, %rcx
	movq	$-1, %r8
	cmovbq	%r8, %rcx
	addq	$24, %rdx
	decq	%rdi
	je	.LBB2_701
.LBB2_698:
	movq	(%rdx), %r8
	testq	%r8, %r8
	je	.LBB2_696
	movq	-8(%rdx), %r9
	movzbl	(%r9), %r9d
	addb	$-48, %r9b
	cmpb	$9, %r9b
	ja	.LBB2_696
	addq	$3, %r8
	jmp	.LBB2_697
.LBB2_701:
	leaq	2(,%rax,2), %rax
	addq	%rax, %rcx
	cmovbq	%r8, %rcx
	addq	%rcx, %rsi
	cmovbq	%r8, %rsi
	xorl	%ebx, %ebx
	movq	8(%rsp), %r9
	cmpq	16(%r9), %rsi
	movq	%r10, (%rsp)
	jbe	.LBB2_705
	jmp	.LBB2_704
.LBB2_702:
	movl	%ebp, %eax
	xorb	$1, %al
	movzbl	%al, %eax
	leaq	4(,%rax,2), %rsi
	leaq	.Lstatic.2(%rip), %rax
	movq	%rax, 464(%rsp)
	movb	$1, %bl
	xorl	%r13d, %r13d
	xorl	%r10d, %r10d
	cmpq	16(%r9), %rsi
	movq	%r10, (%rsp)
	jbe	.LBB2_705
	jmp	.LBB2_704
.LBB2_703:
	movb	$1, %bl
	xorl	%r10d, %r10d
	cmpq	16(%r9), %rsi
	movq	%r10, (%rsp)
	jbe	.LBB2_705
.LBB2_704:
	movq	%r9, %rdi
	callq	"std_alloc::vec::Vec::grow_amortized::<#79675877bf17c286>"
	movq	(%rsp), %r10
	movq	8(%rsp), %r9
	testb	%al, %al
	je	.LBB2_1546
	.p2align	4
.LBB2_705:
	movl	%ebp, 64(%rsp)
	movq	%r13, 472(%rsp)
	movq	%r15, 456(%rsp)
	testb	%bl, %bl
	je	.LBB2_709
.LBB2_706:
	cmpb	$0, 64(%rsp)
	je	.LBB2_712
	movq	8(%r9), %r15
	movq	16(%r9), %rax
	cmpq	%r15, %rax
	leaq	8(%r9), %r13
	movq	472(%rsp), %rbp
	je	.LBB2_806
.LBB2_708:
	movq	456(%rsp), %rcx
	orb	$48, %cl
	movq	(%r9), %rdx
	movb	%cl, (%rdx,%r15)
	incq	%r15
	jmp	.LBB2_714
.LBB2_709:
	cmpb	$0, 64(%rsp)
	movq	456(%rsp), %r15
	je	.LBB2_720
	movq	8(%r9), %rbp
	movq	16(%r9), %rax
	cmpq	%rbp, %rax
	je	.LBB2_897
.LBB2_711:
	movl	%r15d, %ecx
	orb	$48, %cl
	movq	(%r9), %rdx
	movb	%cl, (%rdx,%rbp)
	incq	%rbp
	jmp	.LBB2_722
.LBB2_712:
	movq	8(%r9), %rcx
	movq	16(%r9), %rax
	movq	%rax, %rdx
	subq	%rcx, %rdx
	cmpq	$2, %rdx
	leaq	8(%r9), %r13
	movq	472(%rsp), %rbp
	jbe	.LBB2_808
.LBB2_713:
	movq	456(%rsp), %r10
	imull	$656, %r10d, %esi
	shrl	$16, %esi
	orb	$48, %sil
	imull	$6554, %r10d, %edx
	shrl	$16, %edx
	imull	$103, %edx, %edi
	shrl	$9, %edi
	andl	$-2, %edi
	leal	(%rdi,%rdi,4), %edi
	movl	%edx, %r8d
	subb	%dil, %r8b
	orb	$48, %r8b
	addl	%edx, %edx
	leal	(%rdx,%rdx,4), %edx
	subl	%edx, %r10d
	orb	$48, %r10b
	leaq	3(%rcx), %r15
	movq	(%r9), %rdx
	movb	%sil, (%rdx,%rcx)
	movb	%r8b, 1(%rdx,%rcx)
	movb	%r10b, 2(%rdx,%rcx)
.LBB2_714:
	movq	%rdx, (%r9)
	movq	%r15, 8(%r9)
	movq	%rax, 16(%r9)
	cmpq	%r15, %rax
	je	.LBB2_800
.LBB2_715:
	movb	$32, (%rdx,%r15)
	incq	%r15
	movq	%r15, 8(%r9)
	movq	16(%r9), %rbx
	movq	%rbx, %rax
	subq	%r15, %rax
	cmpq	%rax, %rbp
	ja	.LBB2_802
.LBB2_716:
	movq	(%r9), %r12
	pxor	%xmm0, %xmm0
	movdqu	%xmm0, (%r13)
	leaq	(%r12,%r15), %rdi
	movq	%rdi, %rax
	movq	464(%rsp), %rsi
	subq	%rsi, %rax
	cmpq	%rbp, %rax
	jae	.LBB2_719
	cmpq	$4, %rbp
	jb	.LBB2_718
	cmpq	$32, %rax
	jae	.LBB2_783
.LBB2_718:
	xorl	%eax, %eax
.LBB2_792:
	movq	%rbp, %rdx
	movq	%rax, %rcx
	andq	$3, %rdx
	je	.LBB2_795
	movq	%rax, %rcx
	.p2align	4
.LBB2_794:
	movzbl	(%rsi,%rcx), %r8d
	movb	%r8b, (%rdi,%rcx)
	incq	%rcx
	decq	%rdx
	jne	.LBB2_794
.LBB2_795:
	subq	%rbp, %rax
	cmpq	$-4, %rax
	ja	.LBB2_798
	leaq	(%r12,%r15), %rax
	addq	$3, %rax
	.p2align	4
.LBB2_797:
	movzbl	(%rsi,%rcx), %edx
	movb	%dl, -3(%rax,%rcx)
	movzbl	1(%rsi,%rcx), %edx
	movb	%dl, -2(%rax,%rcx)
	movzbl	2(%rsi,%rcx), %edx
	movb	%dl, -1(%rax,%rcx)
	movzbl	3(%rsi,%rcx), %edx
	movb	%dl, (%rax,%rcx)
	addq	$4, %rcx
	cmpq	%rcx, %rbp
	jne	.LBB2_797
	jmp	.LBB2_798
.LBB2_719:
	movq	%rbp, %rdx
	callq	memmove@PLT
	movq	8(%rsp), %r9
.LBB2_798:
	addq	%rbp, %r15
	movq	%r12, (%r9)
	movq	%r15, 8(%r9)
	movq	%rbx, 16(%r9)
	movq	%rbx, %rax
	subq	%r15, %rax
	cmpq	$1, %rax
	jbe	.LBB2_799
.LBB2_848:
	leaq	(%r12,%r15), %rax
	leaq	.Lstatic.106(%rip), %rcx
	movq	%rax, %rdx
	subq	%rcx, %rdx
	cmpq	$1, %rdx
	movw	$2573, (%rax)
	addq	$2, %r15
	movq	%r12, (%r9)
	movq	%r15, 8(%r9)
	movq	%rbx, 16(%r9)
	testq	%r15, %r15
	je	.LBB2_826
	.p2align	4
.LBB2_849:
	movl	$1, %edi
	movq	%r12, %rsi
	movq	%r15, %rdx
	callq	write@PLT
	testq	%rax, %rax
	js	.LBB2_853
	je	.LBB2_854
	cmpq	%r15, %rax
	cmovaeq	%r15, %rax
	addq	%rax, %r12
	subq	%rax, %r15
	jne	.LBB2_849
	pxor	%xmm0, %xmm0
	movdqa	%xmm0, 544(%rsp)
	movdqa	%xmm0, 528(%rsp)
	movdqa	%xmm0, 512(%rsp)
	movdqa	%xmm0, 1120(%rsp)
	movdqa	%xmm0, 1136(%rsp)
	movq	$0, 1152(%rsp)
	movb	$1, %bpl
	movq	$0, (%rsp)
	xorl	%r14d, %r14d
	xorl	%r13d, %r13d
	movq	$0, 648(%rsp)
	xorl	%ebx, %ebx
	movq	$0, 64(%rsp)
	movq	$0, 504(%rsp)
	movq	$0, 456(%rsp)
	movq	$0, 472(%rsp)
	xorl	%r15d, %r15d
	movq	$0, 464(%rsp)
	movq	$0, 640(%rsp)
	movq	8(%rsp), %r9
	movq	40(%rsp), %rsi
	movq	72(%rsp), %rcx
	movl	36(%rsp), %r12d
	jmp	.LBB2_856
.LBB2_853:
	callq	rattle_errno@PLT
	leaq	80(%rsp), %rdi
	movl	%eax, %esi
	callq	"std_io::io::error::Error::from_raw_os_error"
	movq	80(%rsp), %rax
	movq	%rax, 640(%rsp)
	movzbl	88(%rsp), %r15d
	movzbl	89(%rsp), %eax
	movq	%rax, 472(%rsp)
	movl	90(%rsp), %eax
	movzwl	94(%rsp), %ecx
	shlq	$32, %rcx
	orq	%rax, %rcx
	movq	%rcx, 456(%rsp)
	movzbl	96(%rsp), %eax
	movq	%rax, 504(%rsp)
	movzbl	97(%rsp), %eax
	movq	%rax, 64(%rsp)
	movl	98(%rsp), %eax
	movzwl	102(%rsp), %ebx
	shlq	$32, %rbx
	orq	%rax, %rbx
	movzbl	104(%rsp), %eax
	movq	%rax, 648(%rsp)
	movzbl	105(%rsp), %r13d
	movl	106(%rsp), %eax
	movzwl	110(%rsp), %r14d
	shlq	$32, %r14
	orq	%rax, %r14
	movq	112(%rsp), %rax
	movq	%rax, (%rsp)
	leaq	96(%rsp), %rax
	movdqu	24(%rax), %xmm0
	movdqu	40(%rax), %xmm1
	movdqu	56(%rax), %xmm2
	movdqa	%xmm0, 320(%rsp)
	movdqa	%xmm1, 336(%rsp)
	movdqa	%xmm2, 352(%rsp)
	pxor	%xmm0, %xmm0
	movdqa	%xmm0, 224(%rsp)
	movdqa	%xmm0, 240(%rsp)
	movq	$0, 256(%rsp)
	movl	$1, %eax
	movq	%rax, 464(%rsp)
	jmp	.LBB2_855
.LBB2_854:
	pxor	%xmm0, %xmm0
	movdqa	%xmm0, 352(%rsp)
	movdqa	%xmm0, 336(%rsp)
	movdqa	%xmm0, 320(%rsp)
	movdqa	%xmm0, 224(%rsp)
	movdqa	%xmm0, 240(%rsp)
	movq	$0, 256(%rsp)
	movl	$2, %eax
	movq	%rax, 464(%rsp)
	movq	$0, (%rsp)
	xorl	%r14d, %r14d
	xorl	%r13d, %r13d
	movq	$0, 648(%rsp)
	xorl	%ebx, %ebx
	movq	$0, 64(%rsp)
	movq	$0, 504(%rsp)
	movq	$0, 456(%rsp)
	movq	$0, 472(%rsp)
	xorl	%r15d, %r15d
	movq	$0, 640(%rsp)
.LBB2_855:
	movl	36(%rsp), %r12d
	movaps	320(%rsp), %xmm0
	movaps	336(%rsp), %xmm1
	movdqa	352(%rsp), %xmm2
	movdqa	%xmm2, 544(%rsp)
	movaps	%xmm1, 528(%rsp)
	movaps	%xmm0, 512(%rsp)
	movdqa	224(%rsp), %xmm0
	movdqa	240(%rsp), %xmm1
	movdqa	%xmm0, 1120(%rsp)
	movdqa	%xmm1, 1136(%rsp)
	movq	256(%rsp), %rax
	movq	%rax, 1152(%rsp)
	xorl	%ebp, %ebp
	movq	8(%rsp), %r9
	movq	40(%rsp), %rsi
	movq	72(%rsp), %rcx
.LBB2_856:
	testb	%cl, %cl
	je	.LBB2_865
	cmpl	$2, %r12d
	jne	.LBB2_867
	movq	%rbx, 40(%rsp)
	movq	%r13, %rbx
	movq	%r14, %r13
	movq	%r15, %r14
	testq	%rsi, %rsi
	je	.LBB2_863
	movq	56(%rsp), %rax
	leaq	16(%rax), %r15
	jmp	.LBB2_861
	.p2align	4
.LBB2_860:
	addq	$24, %r15
	decq	%rsi
	je	.LBB2_863
.LBB2_861:
	cmpq	$0, (%r15)
	je	.LBB2_860
	movq	-16(%r15), %rdi
	movq	%rsi, %r12
	callq	rattle_dealloc@PLT
	movq	%r12, %rsi
	movq	8(%rsp), %r9
	jmp	.LBB2_860
	.p2align	4
.LBB2_863:
	cmpq	$0, 48(%rsp)
	movq	%r14, %r15
	movq	%r13, %r14
	movq	%rbx, %r13
	movq	40(%rsp), %rbx
	je	.LBB2_865
.LBB2_864:
	movq	56(%rsp), %rdi
	callq	rattle_dealloc@PLT
	movq	8(%rsp), %r9
.LBB2_865:
	movaps	512(%rsp), %xmm0
	movaps	528(%rsp), %xmm1
	movaps	544(%rsp), %xmm2
	movaps	%xmm2, 1248(%rsp)
	movaps	%xmm1, 1232(%rsp)
	movaps	%xmm0, 1216(%rsp)
	movq	1152(%rsp), %rax
	leaq	1264(%rsp), %rcx
	movq	%rax, 32(%rcx)
	movaps	1120(%rsp), %xmm0
	movaps	1136(%rsp), %xmm1
	movups	%xmm1, 16(%rcx)
	movups	%xmm0, (%rcx)
	testb	%bpl, %bpl
	je	.LBB2_1494
	movq	1520(%rsp), %rax
	movq	%rax, 1008(%rsp)
	movaps	1504(%rsp), %xmm0
	movaps	%xmm0, 992(%rsp)
	movdqa	1440(%rsp), %xmm0
	movdqa	1456(%rsp), %xmm1
	movdqa	1472(%rsp), %xmm2
	movdqa	1488(%rsp), %xmm3
	movdqa	%xmm3, 976(%rsp)
	movdqa	%xmm2, 960(%rsp)
	movdqa	%xmm1, 944(%rsp)
	movdqa	%xmm0, 928(%rsp)
	movq	920(%rsp), %rax
	cmpb	$0, (%rax)
	movq	904(%rsp), %rsi
	leaq	8(%r9), %rbp
	movq	24(%rsp), %r14
	je	.LBB2_1
	jmp	.LBB2_1505
	.p2align	4
.LBB2_867:
	cmpq	$0, 48(%rsp)
	jne	.LBB2_864
	jmp	.LBB2_865
.LBB2_720:
	movq	8(%r9), %rcx
	movq	16(%r9), %rax
	movq	%rax, %rdx
	subq	%rcx, %rdx
	cmpq	$2, %rdx
	jbe	.LBB2_899
.LBB2_721:
	imull	$656, %r15d, %esi
	shrl	$16, %esi
	orb	$48, %sil
	imull	$6554, %r15d, %edx
	shrl	$16, %edx
	imull	$103, %edx, %edi
	shrl	$9, %edi
	andl	$-2, %edi
	leal	(%rdi,%rdi,4), %edi
	movl	%edx, %r8d
	subb	%dil, %r8b
	orb	$48, %r8b
	addl	%edx, %edx
	leal	(%rdx,%rdx,4), %edx
	movl	%r15d, %edi
	subl	%edx, %edi
	orb	$48, %dil
	leaq	3(%rcx), %rbp
	movq	(%r9), %rdx
	movb	%sil, (%rdx,%rcx)
	movb	%r8b, 1(%rdx,%rcx)
	movb	%dil, 2(%rdx,%rcx)
.LBB2_722:
	movq	%rdx, (%r9)
	movq	%rbp, 8(%r9)
	movq	%rax, 16(%r9)
	cmpq	%rbp, %rax
	je	.LBB2_804
.LBB2_723:
	movb	$45, (%rdx,%rbp)
	incq	%rbp
	leaq	8(%r9), %rax
	movq	%rbp, (%rax)
	xorl	%r13d, %r13d
	jmp	.LBB2_727
	.p2align	4
.LBB2_724:
	movq	%r15, %rdx
	callq	memmove@PLT
	movq	(%rsp), %r10
	movq	8(%rsp), %r9
.LBB2_725:
	addq	%r15, %rbp
	movq	%rbx, (%r9)
	movq	%rbp, 8(%r9)
	movq	%r12, 16(%r9)
	movq	%r12, %rax
	subq	%rbp, %rax
	cmpq	$1, %rax
	jbe	.LBB2_745
.LBB2_726:
	leaq	(%rbx,%rbp), %rax
	leaq	.Lstatic.106(%rip), %rcx
	movq	%rax, %rdx
	subq	%rcx, %rdx
	cmpq	$1, %rdx
	movw	$2573, (%rax)
	movq	%rbx, (%r9)
	addq	$2, %rbp
	movq	%rbp, 8(%r9)
	movq	%r12, 16(%r9)
	incq	%r13
	cmpq	%r10, %r13
	je	.LBB2_706
.LBB2_727:
	leaq	(,%r13,2), %rax
	addq	%r13, %rax
	movq	(%r14,%rax,8), %rsi
	movq	8(%r14,%rax,8), %r15
	testq	%r15, %r15
	je	.LBB2_734
	movzbl	(%rsi), %eax
	addb	$-48, %al
	movq	16(%r9), %r12
	cmpb	$9, %al
	ja	.LBB2_735
	cmpq	%rbp, %r12
	je	.LBB2_777
.LBB2_730:
	movq	(%r9), %rax
	movb	$32, (%rax,%rbp)
	incq	%rbp
	movq	%rbp, 8(%r9)
	movq	16(%r9), %r12
	movq	%r12, %rax
	subq	%rbp, %rax
	cmpq	%rax, %r15
	ja	.LBB2_779
.LBB2_731:
	movq	(%r9), %rbx
	pxor	%xmm0, %xmm0
	leaq	8(%r9), %rax
	movdqu	%xmm0, (%rax)
	leaq	(%rbx,%rbp), %rdi
	movq	%rdi, %rax
	subq	%rsi, %rax
	cmpq	%r15, %rax
	jae	.LBB2_724
	cmpq	$4, %r15
	jb	.LBB2_733
	cmpq	$32, %rax
	jae	.LBB2_762
.LBB2_733:
	xorl	%eax, %eax
.LBB2_771:
	movq	%r15, %rdx
	movq	%rax, %rcx
	andq	$3, %rdx
	je	.LBB2_774
	movq	%rax, %rcx
	.p2align	4
.LBB2_773:
	movzbl	(%rsi,%rcx), %r8d
	movb	%r8b, (%rdi,%rcx)
	incq	%rcx
	decq	%rdx
	jne	.LBB2_773
.LBB2_774:
	subq	%r15, %rax
	cmpq	$-4, %rax
	ja	.LBB2_725
	leaq	(%rbx,%rbp), %rax
	addq	$3, %rax
	.p2align	4
.LBB2_776:
	movzbl	(%rsi,%rcx), %edx
	movb	%dl, -3(%rax,%rcx)
	movzbl	1(%rsi,%rcx), %edx
	movb	%dl, -2(%rax,%rcx)
	movzbl	2(%rsi,%rcx), %edx
	movb	%dl, -1(%rax,%rcx)
	movzbl	3(%rsi,%rcx), %edx
	movb	%dl, (%rax,%rcx)
	addq	$4, %rcx
	cmpq	%rcx, %r15
	jne	.LBB2_776
	jmp	.LBB2_725
	.p2align	4
.LBB2_734:
	movq	16(%r9), %r12
.LBB2_735:
	movq	%r12, %rax
	subq	%rbp, %rax
	cmpq	%rax, %r15
	ja	.LBB2_760
.LBB2_736:
	movq	(%r9), %rbx
	pxor	%xmm0, %xmm0
	leaq	8(%r9), %rax
	movdqu	%xmm0, (%rax)
	leaq	(%rbx,%rbp), %rdi
	movq	%rdi, %rax
	subq	%rsi, %rax
	cmpq	%r15, %rax
	jae	.LBB2_724
	cmpq	$4, %r15
	jb	.LBB2_738
	cmpq	$32, %rax
	jae	.LBB2_741
.LBB2_738:
	xorl	%eax, %eax
.LBB2_754:
	movq	%r15, %rdx
	movq	%rax, %rcx
	andq	$3, %rdx
	je	.LBB2_757
	movq	%rax, %rcx
	.p2align	4
.LBB2_756:
	movzbl	(%rsi,%rcx), %r8d
	movb	%r8b, (%rdi,%rcx)
	incq	%rcx
	decq	%rdx
	jne	.LBB2_756
.LBB2_757:
	subq	%r15, %rax
	cmpq	$-4, %rax
	ja	.LBB2_725
	leaq	(%rbx,%rbp), %rax
	addq	$3, %rax
	.p2align	4
.LBB2_759:
	movzbl	(%rsi,%rcx), %edx
	movb	%dl, -3(%rax,%rcx)
	movzbl	1(%rsi,%rcx), %edx
	movb	%dl, -2(%rax,%rcx)
	movzbl	2(%rsi,%rcx), %edx
	movb	%dl, -1(%rax,%rcx)
	movzbl	3(%rsi,%rcx), %edx
	movb	%dl, (%rax,%rcx)
	addq	$4, %rcx
	cmpq	%rcx, %r15
	jne	.LBB2_759
	jmp	.LBB2_725
.LBB2_741:
	cmpq	$32, %r15
	jae	.LBB2_747
	xorl	%eax, %eax
	jmp	.LBB2_751
.LBB2_745:
	movl	$2, %esi
	movq	%r9, %rdi
	movq	%r9, %r15
	callq	"std_alloc::vec::Vec::grow_amortized::<#79675877bf17c286>"
	testb	%al, %al
	je	.LBB2_1506
	movq	(%r15), %rbx
	movq	8(%r15), %rbp
	movq	16(%r15), %r12
	movq	%r15, %r9
	movq	(%rsp), %r10
	jmp	.LBB2_726
.LBB2_747:
	movq	%r15, %rax
	andq	$-32, %rax
	leaq	(%rbx,%rbp), %rcx
	addq	$16, %rcx
	xorl	%edx, %edx
	.p2align	4
.LBB2_748:
	movdqu	(%rsi,%rdx), %xmm0
	movdqu	16(%rsi,%rdx), %xmm1
	movdqu	%xmm0, -16(%rcx,%rdx)
	movdqu	%xmm1, (%rcx,%rdx)
	addq	$32, %rdx
	cmpq	%rdx, %rax
	jne	.LBB2_748
	cmpq	%rax, %r15
	je	.LBB2_725
	testb	$28, %r15b
	je	.LBB2_754
.LBB2_751:
	movq	%rax, %rcx
	movq	%r15, %rax
	andq	$-4, %rax
	.p2align	4
.LBB2_752:
	movl	(%rsi,%rcx), %edx
	movl	%edx, (%rdi,%rcx)
	addq	$4, %rcx
	cmpq	%rcx, %rax
	jne	.LBB2_752
	cmpq	%rax, %r15
	je	.LBB2_725
	jmp	.LBB2_754
.LBB2_760:
	movq	%rsi, %rbx
	movq	%r9, %rdi
	movq	%r15, %rsi
	movq	%r9, %r14
	callq	"std_alloc::vec::Vec::grow_amortized::<#79675877bf17c286>"
	testb	%al, %al
	je	.LBB2_1507
	movq	8(%r14), %rbp
	movq	16(%r14), %r12
	movq	%rbx, %rsi
	movq	%r14, %r9
	movq	56(%rsp), %r14
	movq	(%rsp), %r10
	jmp	.LBB2_736
.LBB2_762:
	cmpq	$32, %r15
	jae	.LBB2_764
	xorl	%eax, %eax
	jmp	.LBB2_768
.LBB2_764:
	movq	%r15, %rax
	andq	$-32, %rax
	leaq	(%rbx,%rbp), %rcx
	addq	$16, %rcx
	xorl	%edx, %edx
	.p2align	4
.LBB2_765:
	movdqu	(%rsi,%rdx), %xmm0
	movdqu	16(%rsi,%rdx), %xmm1
	movdqu	%xmm0, -16(%rcx,%rdx)
	movdqu	%xmm1, (%rcx,%rdx)
	addq	$32, %rdx
	cmpq	%rdx, %rax
	jne	.LBB2_765
	cmpq	%rax, %r15
	je	.LBB2_725
	testb	$28, %r15b
	je	.LBB2_771
.LBB2_768:
	movq	%rax, %rcx
	movq	%r15, %rax
	andq	$-4, %rax
	.p2align	4
.LBB2_769:
	movl	(%rsi,%rcx), %edx
	movl	%edx, (%rdi,%rcx)
	addq	$4, %rcx
	cmpq	%rcx, %rax
	jne	.LBB2_769
	cmpq	%rax, %r15
	je	.LBB2_725
	jmp	.LBB2_771
.LBB2_777:
	movq	%rsi, %rbx
	movl	$1, %esi
	movq	%r9, %rdi
	movq	%r9, %r14
	callq	"std_alloc::vec::Vec::grow_amortized::<#79675877bf17c286>"
	testb	%al, %al
	je	.LBB2_1507
	leaq	8(%r14), %rax
	movq	(%rax), %rbp
	movq	%rbx, %rsi
	movq	%r14, %r9
	movq	56(%rsp), %r14
	movq	(%rsp), %r10
	jmp	.LBB2_730
.LBB2_779:
	movq	%rsi, 504(%rsp)
	movq	%r9, %rdi
	movq	%r15, %rsi
	movq	%r9, %rbx
	callq	"std_alloc::vec::Vec::grow_amortized::<#79675877bf17c286>"
	testb	%al, %al
	je	.LBB2_1506
	movq	8(%rbx), %rbp
	movq	16(%rbx), %r12
	movq	504(%rsp), %rsi
	movq	%rbx, %r9
	movq	(%rsp), %r10
	jmp	.LBB2_731
.LBB2_783:
	cmpq	$32, %rbp
	jae	.LBB2_785
	xorl	%eax, %eax
	jmp	.LBB2_789
.LBB2_785:
	movq	%rbp, %rax
	andq	$-32, %rax
	leaq	(%r12,%r15), %rcx
	addq	$16, %rcx
	xorl	%edx, %edx
	.p2align	4
.LBB2_786:
	movdqu	(%rsi,%rdx), %xmm0
	movdqu	16(%rsi,%rdx), %xmm1
	movdqu	%xmm0, -16(%rcx,%rdx)
	movdqu	%xmm1, (%rcx,%rdx)
	addq	$32, %rdx
	cmpq	%rdx, %rax
	jne	.LBB2_786
	cmpq	%rax, %rbp
	je	.LBB2_798
	testb	$28, %bpl
	je	.LBB2_792
.LBB2_789:
	movq	%rax, %rcx
	movq	%rbp, %rax
	andq	$-4, %rax
	.p2align	4
.LBB2_790:
	movl	(%rsi,%rcx), %edx
	movl	%edx, (%rdi,%rcx)
	addq	$4, %rcx
	cmpq	%rcx, %rax
	jne	.LBB2_790
	cmpq	%rax, %rbp
	je	.LBB2_798
	jmp	.LBB2_792
.LBB2_800:
	movl	$1, %esi
	movq	%r9, %rdi
	movq	%r9, %rbx
	callq	"std_alloc::vec::Vec::grow_amortized::<#79675877bf17c286>"
	testb	%al, %al
	je	.LBB2_1548
	movq	(%rbx), %rdx
	movq	8(%rbx), %r15
	movq	%rbx, %r9
	jmp	.LBB2_715
.LBB2_802:
	movq	%r9, %rdi
	movq	%rbp, %rsi
	movq	%r9, %r14
	callq	"std_alloc::vec::Vec::grow_amortized::<#79675877bf17c286>"
	testb	%al, %al
	je	.LBB2_1547
	movq	8(%r14), %r15
	movq	16(%r14), %rbx
	movq	%r14, %r9
	jmp	.LBB2_716
.LBB2_799:
	movl	$2, %esi
	movq	%r9, %rdi
	movq	%r9, %r14
	callq	"std_alloc::vec::Vec::grow_amortized::<#79675877bf17c286>"
	testb	%al, %al
	je	.LBB2_1547
.LBB2_873:
	movq	(%r14), %r12
	movq	8(%r14), %r15
	movq	16(%r14), %rbx
	movq	%r14, %r9
	jmp	.LBB2_848
.LBB2_804:
	movl	$1, %esi
	movq	%r9, %rdi
	movq	%r9, %rbx
	callq	"std_alloc::vec::Vec::grow_amortized::<#79675877bf17c286>"
	testb	%al, %al
	je	.LBB2_1546
	movq	(%rbx), %rdx
	movq	8(%rbx), %rbp
	movq	%rbx, %r9
	movq	(%rsp), %r10
	jmp	.LBB2_723
.LBB2_806:
	movl	$1, %esi
	movq	%r9, %rdi
	movq	%r9, %rbx
	callq	"std_alloc::vec::Vec::grow_amortized::<#79675877bf17c286>"
	testb	%al, %al
	je	.LBB2_1548
	movq	8(%rbx), %r15
	movq	16(%rbx), %rax
	movq	%rbx, %r9
	jmp	.LBB2_708
.LBB2_808:
	movl	$3, %esi
	movq	%r9, %rdi
	movq	%r9, %rbx
	callq	"std_alloc::vec::Vec::grow_amortized::<#79675877bf17c286>"
	testb	%al, %al
	je	.LBB2_1548
	movq	8(%rbx), %rcx
	movq	16(%rbx), %rax
	movq	%rbx, %r9
	jmp	.LBB2_713
.LBB2_810:
	movl	$3, %eax
	movl	$553, %ebp
	xorl	%ebx, %ebx
	testq	%rsi, %rsi
	jne	.LBB2_690
	jmp	.LBB2_811
.LBB2_880:
	movups	.Lstatic.63+48(%rip), %xmm0
	movups	%xmm0, 48(%rbx)
	movups	.Lstatic.63+32(%rip), %xmm0
	movups	%xmm0, 32(%rbx)
	movups	.Lstatic.63+16(%rip), %xmm0
	movups	%xmm0, 16(%rbx)
	movups	.Lstatic.63(%rip), %xmm0
	movups	%xmm0, (%rbx)
.LBB2_881:
	leaq	64(%rbx), %rax
	leaq	.Lstatic.67(%rip), %rcx
	movq	%rax, %rdx
	subq	%rcx, %rdx
	cmpq	$31, %rdx
	ja	.LBB2_883
	movups	.Lstatic.67(%rip), %xmm0
	movups	%xmm0, (%rax)
	movdqu	.Lstatic.67+16(%rip), %xmm0
	movdqu	%xmm0, 80(%rbx)
	jmp	.LBB2_884
.LBB2_883:
	movups	.Lstatic.67+16(%rip), %xmm0
	movups	%xmm0, 16(%rax)
	movdqu	.Lstatic.67(%rip), %xmm0
	movdqu	%xmm0, (%rax)
.LBB2_884:
	pxor	%xmm0, %xmm0
	movdqa	%xmm0, 80(%rsp)
	movdqa	%xmm0, 96(%rsp)
	movdqa	%xmm0, 112(%rsp)
	movdqa	%xmm0, 128(%rsp)
	movdqa	%xmm0, 144(%rsp)
	movdqa	%xmm0, 160(%rsp)
	movdqa	%xmm0, 176(%rsp)
	movq	$0, 192(%rsp)
	movl	$192, %edi
	movl	$8, %esi
	callq	rattle_alloc@PLT
	testb	$1, %al
	je	.LBB2_1265
	movq	%rdx, %r14
	movq	%rdx, 480(%rsp)
	movq	$0, 488(%rsp)
	movq	$8, 496(%rsp)
	movl	$21, %edi
	movl	$1, %esi
	callq	rattle_alloc@PLT
	testb	$1, %al
	je	.LBB2_1264
	leaq	.Lstatic.68(%rip), %rax
	negq	%rax
	addq	%rdx, %rax
	addq	$-16, %rax
	cmpq	$20, %rax
	ja	.LBB2_985
	movdqa	.LCPI2_24(%rip), %xmm0
	movdqu	%xmm0, (%rdx)
	movl	$1684370546, 16(%rdx)
	movb	$58, 20(%rdx)
	jmp	.LBB2_986
.LBB2_888:
	movb	$101, 2(%rdx)
	movq	%rdx, %r15
	movw	$31042, (%rdx)
.LBB2_889:
	leaq	336(%rsp), %rdx
	pxor	%xmm0, %xmm0
	movdqu	%xmm0, 104(%rdx)
	movdqu	%xmm0, 88(%rdx)
	movdqu	%xmm0, 72(%rdx)
	movdqu	%xmm0, 56(%rdx)
	movdqu	%xmm0, 40(%rdx)
	movdqu	%xmm0, 24(%rdx)
	movb	$1, %r13b
	movb	$15, %al
	movl	$3, %esi
.LBB2_890:
	xorl	%r14d, %r14d
.LBB2_891:
	movq	112(%rdx), %rcx
	movq	%rcx, 304(%rsp)
	movups	96(%rdx), %xmm0
	movaps	%xmm0, 288(%rsp)
	movdqu	32(%rdx), %xmm0
	movdqu	48(%rdx), %xmm1
	movdqu	64(%rdx), %xmm2
	movdqu	80(%rdx), %xmm3
	movdqa	%xmm3, 272(%rsp)
	movdqa	%xmm2, 256(%rsp)
	movdqa	%xmm1, 240(%rsp)
	movdqa	%xmm0, 224(%rsp)
	xorl	%ecx, %ecx
	movq	%rsi, 48(%rsp)
	xorl	%r8d, %r8d
	jmp	.LBB2_504
.LBB2_892:
	pxor	%xmm0, %xmm0
	movdqa	%xmm0, 736(%rsp)
	movdqa	%xmm0, 720(%rsp)
	movdqa	%xmm0, 704(%rsp)
	movdqa	%xmm0, 688(%rsp)
	movdqa	%xmm0, 672(%rsp)
	movdqa	%xmm0, 656(%rsp)
.LBB2_893:
	movq	%r15, %rdi
	callq	rattle_dealloc@PLT
.LBB2_894:
	movl	$10, %r13d
	movb	$1, %r14b
	xorl	%esi, %esi
	xorl	%r15d, %r15d
	leaq	336(%rsp), %rax
.LBB2_895:
	movaps	736(%rsp), %xmm0
	movups	%xmm0, 104(%rax)
	movaps	720(%rsp), %xmm0
	movups	%xmm0, 88(%rax)
	movaps	656(%rsp), %xmm0
	movaps	672(%rsp), %xmm1
	movaps	688(%rsp), %xmm2
	movaps	704(%rsp), %xmm3
	movups	%xmm3, 72(%rax)
	movups	%xmm2, 56(%rax)
	movups	%xmm1, 40(%rax)
	movups	%xmm0, 24(%rax)
	movl	%r13d, %eax
	shrl	$8, %eax
	movq	360(%rsp), %r8
	leaq	664(%rsp), %rcx
	movups	(%rcx), %xmm0
	movdqu	16(%rcx), %xmm1
	movdqu	32(%rcx), %xmm2
	movdqu	48(%rcx), %xmm3
	movaps	%xmm0, 224(%rsp)
	movdqa	%xmm1, 240(%rsp)
	movdqa	%xmm2, 256(%rsp)
	movdqa	%xmm3, 272(%rsp)
	movdqu	64(%rcx), %xmm0
	movdqa	%xmm0, 288(%rsp)
	movq	80(%rcx), %rcx
	jmp	.LBB2_1081
.LBB2_896:
	movq	%rdx, %rdi
	movq	%r14, %rsi
	movq	%r12, %rdx
	callq	memcpy@PLT
	movq	%r12, %rsi
	jmp	.LBB2_1071
.LBB2_897:
	movl	$1, %esi
	movq	%r9, %rdi
	movq	%r9, %rbx
	callq	"std_alloc::vec::Vec::grow_amortized::<#79675877bf17c286>"
	testb	%al, %al
	je	.LBB2_1546
	movq	8(%rbx), %rbp
	movq	16(%rbx), %rax
	movq	%rbx, %r9
	movq	(%rsp), %r10
	jmp	.LBB2_711
.LBB2_899:
	movl	$3, %esi
	movq	%r9, %rdi
	movq	%r9, %rbx
	callq	"std_alloc::vec::Vec::grow_amortized::<#79675877bf17c286>"
	testb	%al, %al
	je	.LBB2_1546
	movq	8(%rbx), %rcx
	movq	16(%rbx), %rax
	movq	%rbx, %r9
	movq	(%rsp), %r10
	jmp	.LBB2_721
.LBB2_901:
	movabsq	$7234316393937462636, %rcx
	movq	%rcx, 7(%rdx)
	movq	%rdx, %r15
	movq	%rax, (%rdx)
.LBB2_902:
	pxor	%xmm0, %xmm0
	movdqa	%xmm0, 160(%rsp)
	movdqa	%xmm0, 144(%rsp)
	movdqa	%xmm0, 128(%rsp)
	movdqa	%xmm0, 112(%rsp)
	movdqa	%xmm0, 96(%rsp)
	movdqa	%xmm0, 80(%rsp)
	movl	$15, %ebx
	movl	$9217, %r13d
	xorl	%r14d, %r14d
	leaq	336(%rsp), %rdx
	cmpq	$0, 48(%rsp)
	je	.LBB2_904
.LBB2_903:
	movq	%r12, %rdi
	callq	rattle_dealloc@PLT
	leaq	336(%rsp), %rdx
.LBB2_904:
	cmpq	$0, 56(%rsp)
	je	.LBB2_906
	movq	(%rsp), %rdi
	callq	rattle_dealloc@PLT
	leaq	336(%rsp), %rdx
.LBB2_906:
	movaps	160(%rsp), %xmm0
	movups	%xmm0, 104(%rdx)
	movaps	144(%rsp), %xmm0
	movups	%xmm0, 88(%rdx)
	movdqa	80(%rsp), %xmm0
	movdqa	96(%rsp), %xmm1
	movdqa	112(%rsp), %xmm2
	movdqa	128(%rsp), %xmm3
	movdqu	%xmm3, 72(%rdx)
	movdqu	%xmm2, 56(%rdx)
	movdqu	%xmm1, 40(%rdx)
	movdqu	%xmm0, 24(%rdx)
	movl	%r13d, %eax
	shrl	$8, %eax
	movq	360(%rsp), %r8
	movq	%rbx, %rsi
	movq	%rbx, 48(%rsp)
.LBB2_907:
	movq	112(%rdx), %rcx
	movq	%rcx, 304(%rsp)
	movups	96(%rdx), %xmm0
	movaps	%xmm0, 288(%rsp)
	movdqu	32(%rdx), %xmm0
	movdqu	48(%rdx), %xmm1
	movdqu	64(%rdx), %xmm2
	movdqu	80(%rdx), %xmm3
	movdqa	%xmm3, 272(%rsp)
	movdqa	%xmm2, 256(%rsp)
	movdqa	%xmm1, 240(%rsp)
	movdqa	%xmm0, 224(%rsp)
	jmp	.LBB2_1268
.LBB2_908:
	movl	%r14d, %eax
	andl	$-16, %eax
	xorl	%ecx, %ecx
	.p2align	4
.LBB2_909:
	movdqu	(%r15,%rcx), %xmm0
	movdqu	%xmm0, (%rdi,%rcx)
	addq	$16, %rcx
	cmpq	%rcx, %rax
	jne	.LBB2_909
	cmpl	%eax, %r14d
	je	.LBB2_921
	testb	$12, %r14b
	je	.LBB2_915
.LBB2_912:
	movq	%rax, %rcx
	movl	%r14d, %eax
	andl	$-4, %eax
	.p2align	4
.LBB2_913:
	movl	(%r15,%rcx), %edx
	movl	%edx, (%rdi,%rcx)
	addq	$4, %rcx
	cmpq	%rcx, %rax
	jne	.LBB2_913
	cmpl	%eax, %r14d
	je	.LBB2_921
.LBB2_915:
	movq	%rsi, %r8
	movq	%r14, %rdx
	movq	%rax, %rcx
	andq	$3, %rdx
	je	.LBB2_918
	movq	%rax, %rcx
	.p2align	4
.LBB2_917:
	movzbl	(%r15,%rcx), %esi
	movb	%sil, (%rdi,%rcx)
	incq	%rcx
	decq	%rdx
	jne	.LBB2_917
.LBB2_918:
	subl	%r14d, %eax
	cmpl	$-4, %eax
	movq	%r8, %rsi
	ja	.LBB2_921
	leaq	(%r12,%rsi), %rax
	addq	$3, %rax
	.p2align	4
.LBB2_920:
	movl	(%r15,%rcx), %edx
	movl	%edx, -3(%rax,%rcx)
	addq	$4, %rcx
	cmpq	%rcx, %r14
	jne	.LBB2_920
.LBB2_921:
	addq	%r14, %rsi
	movq	96(%rsp), %rax
	movq	%rax, 48(%rsp)
	movq	(%rsp), %r14
	cmpb	$6, %r13b
	je	.LBB2_982
	jmp	.LBB2_984
.LBB2_922:
	movb	$58, 4(%rdx)
	movl	$1886152008, (%rdx)
.LBB2_923:
	movq	%rdx, (%r14)
	movq	$5, 8(%r14)
	movq	$5, 16(%r14)
	movl	$1, %r14d
	movl	$27, %edi
	movl	$1, %esi
	callq	rattle_alloc@PLT
	testb	$1, %al
	je	.LBB2_1026
	leaq	(%rdx,%rbx), %rax
	addq	$-53, %rax
	cmpq	$27, %rax
	jae	.LBB2_1022
	movdqa	.LCPI2_21(%rip), %xmm0
	movdqu	%xmm0, (%rdx)
	movabsq	$3615880465802622054, %rax
	movq	%rax, 16(%rdx)
	movw	$11828, 24(%rdx)
	movb	$48, 26(%rdx)
	jmp	.LBB2_1023
.LBB2_926:
	movl	%r12d, %eax
	andl	$-8, %eax
	testl	$65536, %r13d
	je	.LBB2_1030
	movd	.LCPI2_26(%rip), %xmm0
	jmp	.LBB2_1031
.LBB2_928:
	movl	%ebx, %eax
	andl	$-16, %eax
	xorl	%ecx, %ecx
	movq	%r15, %rdx
	.p2align	4
.LBB2_929:
	movdqu	(%r14,%rcx), %xmm0
	movdqu	%xmm0, (%rdx,%rcx)
	addq	$16, %rcx
	cmpq	%rcx, %rax
	jne	.LBB2_929
	testb	$12, %bl
	je	.LBB2_1072
	movq	%rbx, %r8
	leaq	-2(%rbx), %rcx
	movq	%r15, %rsi
	.p2align	4
.LBB2_932:
	movl	(%r14,%rax), %edx
	movl	%edx, (%rsi,%rax)
	addq	$4, %rax
	cmpq	%rax, %rcx
	jne	.LBB2_932
	movq	%rcx, %rax
	jmp	.LBB2_1073
.LBB2_934:
	movq	%rbx, %rdi
	andl	$-16, %ebx
	xorl	%eax, %eax
	movq	%r15, %rsi
	.p2align	4
.LBB2_935:
	movdqu	(%r14,%rax), %xmm0
	movdqu	%xmm0, (%rsi,%rax)
	addq	$16, %rax
	cmpq	%rax, %rbx
	jne	.LBB2_935
	movl	%edi, %eax
	andl	$-12, %eax
	.p2align	4
.LBB2_937:
	movl	(%r14,%rbx), %edx
	movl	%edx, (%rsi,%rbx)
	addq	$4, %rbx
	cmpq	%rbx, %rax
	jne	.LBB2_937
	movq	%rdi, %rbx
.LBB2_939:
	movq	%rbx, %r8
	movq	%rax, %rcx
	andq	$3, %rbx
	movq	%r15, %rdi
	je	.LBB2_942
	movq	%rax, %rcx
	.p2align	4
.LBB2_941:
	movzbl	(%r14,%rcx), %esi
	movb	%sil, (%rdi,%rcx)
	incq	%rcx
	decq	%rbx
	jne	.LBB2_941
.LBB2_942:
	movq	%r8, %rsi
	subl	%esi, %eax
	cmpl	$-4, %eax
	ja	.LBB2_1078
	.p2align	4
.LBB2_943:
	movl	(%r14,%rcx), %eax
	movl	%eax, (%rdi,%rcx)
	addq	$4, %rcx
	cmpq	%rcx, %rsi
	jne	.LBB2_943
	jmp	.LBB2_1078
.LBB2_944:
	leaq	.Lstatic.104(%rip), %r14
	jmp	.LBB2_956
.LBB2_945:
	leaq	.Lstatic.98(%rip), %r14
	movl	$37, %r15d
	jmp	.LBB2_958
.LBB2_946:
	leaq	.Lstatic.103(%rip), %r14
	movl	$32, %r15d
	jmp	.LBB2_958
.LBB2_947:
	leaq	.Lstatic.96(%rip), %r14
	movl	$21, %r15d
	jmp	.LBB2_958
.LBB2_948:
	leaq	.Lstatic.97(%rip), %r14
	movl	$48, %r15d
	jmp	.LBB2_958
.LBB2_949:
	leaq	.Lstatic.101(%rip), %r14
	movl	$35, %r15d
	jmp	.LBB2_958
.LBB2_950:
	leaq	.Lstatic.95(%rip), %r14
	movl	$23, %r15d
	jmp	.LBB2_958
.LBB2_951:
	leaq	.Lstatic.99(%rip), %r14
	movl	$29, %r15d
	jmp	.LBB2_958
.LBB2_952:
	leaq	80(%rsp), %rdi
	movl	$17, %esi
	callq	"std_alloc::vec::Vec::grow_amortized::<#1908c79f2a33ade2>"
	testb	%al, %al
	je	.LBB2_1536
	movq	96(%rsp), %r15
	movq	80(%rsp), %r12
	movq	88(%rsp), %rsi
	pxor	%xmm0, %xmm0
	leaq	96(%rsp), %rax
	movdqu	%xmm0, -8(%rax)
	leaq	(%r12,%rsi), %rax
	leaq	.Lstatic.93(%rip), %rcx
	movq	%rax, %rdx
	subq	%rcx, %rdx
	cmpq	$16, %rdx
	ja	.LBB2_1047
	movdqa	.LCPI2_12(%rip), %xmm0
	jmp	.LBB2_1048
.LBB2_955:
	leaq	.Lstatic.92(%rip), %r14
.LBB2_956:
	movl	$13, %r15d
	movb	$1, %bl
	jmp	.LBB2_959
.LBB2_957:
	leaq	.Lstatic.102(%rip), %r14
	movl	$47, %r15d
.LBB2_958:
	xorl	%ebx, %ebx
.LBB2_959:
	leaq	80(%rsp), %rdi
	movq	%r15, %rsi
	callq	"std_alloc::vec::Vec::grow_amortized::<#1908c79f2a33ade2>"
	testb	%al, %al
	je	.LBB2_1536
	movq	80(%rsp), %rcx
	movq	88(%rsp), %rax
	leaq	(%rax,%r15), %rsi
	movq	%rcx, %r12
	leaq	(%rcx,%rax), %rdi
	movq	%rdi, %rcx
	subq	%r14, %rcx
	cmpq	%r15, %rcx
	jae	.LBB2_963
	cmpq	$16, %rcx
	jae	.LBB2_964
	movq	%rsi, %r9
	xorl	%ecx, %ecx
	jmp	.LBB2_973
.LBB2_963:
	movq	%rsi, %rbx
	movq	%r14, %rsi
	movq	%r15, %rdx
	callq	memmove@PLT
	movq	%rbx, %rsi
	jmp	.LBB2_980
.LBB2_964:
	testb	%bl, %bl
	je	.LBB2_966
	movq	%rsi, %r9
	xorl	%ecx, %ecx
	jmp	.LBB2_970
.LBB2_966:
	movl	%r15d, %ecx
	andl	$-16, %ecx
	xorl	%edx, %edx
	.p2align	4
.LBB2_967:
	movdqu	(%r14,%rdx), %xmm0
	movdqu	%xmm0, (%rdi,%rdx)
	addq	$16, %rdx
	cmpq	%rdx, %rcx
	jne	.LBB2_967
	cmpl	%ecx, %r15d
	je	.LBB2_980
	movq	%rsi, %r9
	testb	$12, %r15b
	je	.LBB2_973
.LBB2_970:
	movq	%rcx, %rdx
	movl	%r15d, %ecx
	andl	$-4, %ecx
	.p2align	4
.LBB2_971:
	movl	(%r14,%rdx), %esi
	movl	%esi, (%rdi,%rdx)
	addq	$4, %rdx
	cmpq	%rdx, %rcx
	jne	.LBB2_971
	cmpl	%ecx, %r15d
	je	.LBB2_977
.LBB2_973:
	movq	%r15, %rsi
	movq	%rcx, %rdx
	andq	$3, %rsi
	je	.LBB2_976
	movq	%rcx, %rdx
	.p2align	4
.LBB2_975:
	movzbl	(%r14,%rdx), %r8d
	movb	%r8b, (%rdi,%rdx)
	incq	%rdx
	decq	%rsi
	jne	.LBB2_975
.LBB2_976:
	subl	%r15d, %ecx
	cmpl	$-4, %ecx
	jbe	.LBB2_978
.LBB2_977:
	movq	(%rsp), %r14
	movq	%r9, %rsi
	movq	96(%rsp), %rax
	movq	%rax, 48(%rsp)
	cmpb	$6, %r13b
	je	.LBB2_982
	jmp	.LBB2_984
.LBB2_978:
	addq	%r12, %rax
	addq	$3, %rax
	movq	%r9, %rsi
	.p2align	4
.LBB2_979:
	movzbl	(%r14,%rdx), %ecx
	movb	%cl, -3(%rax,%rdx)
	movzbl	1(%r14,%rdx), %ecx
	movb	%cl, -2(%rax,%rdx)
	movzbl	2(%r14,%rdx), %ecx
	movb	%cl, -1(%rax,%rdx)
	movzbl	3(%r14,%rdx), %ecx
	movb	%cl, (%rax,%rdx)
	addq	$4, %rdx
	cmpq	%rdx, %r15
	jne	.LBB2_979
.LBB2_980:
	movq	(%rsp), %r14
	movq	96(%rsp), %rax
	movq	%rax, 48(%rsp)
	cmpb	$6, %r13b
	jne	.LBB2_984
.LBB2_982:
	cmpq	$0, 56(%rsp)
	je	.LBB2_984
	movq	%r14, %rdi
	movq	%rsi, %rbx
	callq	rattle_dealloc@PLT
	movq	%rbx, %rsi
.LBB2_984:
	pxor	%xmm0, %xmm0
	movdqa	%xmm0, 1024(%rsp)
	movdqa	%xmm0, 1040(%rsp)
	movdqa	%xmm0, 1056(%rsp)
	movdqa	%xmm0, 1072(%rsp)
	movdqa	%xmm0, 1088(%rsp)
	movq	$0, 1104(%rsp)
	movl	$8705, %ecx
	movq	8(%rsp), %r9
	movq	%r12, %r14
	jmp	.LBB2_506
.LBB2_985:
	movdqu	.Lstatic.68+16(%rip), %xmm0
	movdqu	%xmm0, (%rdx)
	movabsq	$4207599502681403504, %rax
	movq	%rax, 13(%rdx)
.LBB2_986:
	leaq	848(%rsp), %r15
	movq	%rdx, (%r14)
	movq	$21, 8(%r14)
	movq	$21, 16(%r14)
	movq	$1, 488(%rsp)
	movl	$1, %r12d
	xorl	%r13d, %r13d
.LBB2_987:
	pxor	%xmm0, %xmm0
	movdqu	%xmm0, (%r15)
	movl	$0, 52(%r15)
	movl	$0, 49(%r15)
	leaq	16(%rsp), %rax
	movq	%rax, 840(%rsp)
	movq	$0, 888(%rsp)
	movb	$0, 896(%rsp)
	movl	$32, 864(%rsp)
	movl	$0, 28(%r15)
	movq	$0, 20(%r15)
	movq	$-1, 880(%rsp)
	leaq	840(%rsp), %rdi
	movl	$1, %esi
	callq	"std_alloc::vec::Vec::grow_amortized::<#1908c79f2a33ade2>"
	testb	%al, %al
	je	.LBB2_1087
	movq	%r15, %rdx
	movq	%r13, %rcx
	shlq	$4, %rcx
	movq	856(%rsp), %rbp
	movq	840(%rsp), %r15
	movq	848(%rsp), %rax
	movb	$32, (%r15,%rax)
	incq	%rax
	movq	%rax, 848(%rsp)
	movl	$32, 864(%rsp)
	movl	$0, 28(%rdx)
	movq	$0, 20(%rdx)
	movq	$-1, 880(%rsp)
	movq	(%rbx,%rcx), %rsi
	movq	8(%rbx,%rcx), %rdx
	cmpq	$0, 888(%rsp)
	jne	.LBB2_998
	movq	%rbp, %rcx
	subq	%rax, %rcx
	cmpq	%rcx, %rdx
	ja	.LBB2_1017
.LBB2_990:
	leaq	(%rax,%rdx), %r11
	leaq	(%r15,%rax), %rdi
	movq	%rdi, %rcx
	subq	%rsi, %rcx
	cmpq	%rdx, %rcx
	jae	.LBB2_993
	cmpq	$4, %rdx
	jb	.LBB2_992
	cmpq	$32, %rcx
	jae	.LBB2_996
.LBB2_992:
	xorl	%ecx, %ecx
.LBB2_1007:
	movq	%rdx, %r9
	movq	%rcx, %r8
	andq	$3, %r9
	je	.LBB2_1010
	movq	%rcx, %r8
	.p2align	4
.LBB2_1009:
	movzbl	(%rsi,%r8), %r10d
	movb	%r10b, (%rdi,%r8)
	incq	%r8
	decq	%r9
	jne	.LBB2_1009
.LBB2_1010:
	subq	%rdx, %rcx
	cmpq	$-4, %rcx
	ja	.LBB2_1013
	addq	%r15, %rax
	addq	$3, %rax
	.p2align	4
.LBB2_1012:
	movzbl	(%rsi,%r8), %ecx
	movb	%cl, -3(%rax,%r8)
	movzbl	1(%rsi,%r8), %ecx
	movb	%cl, -2(%rax,%r8)
	movzbl	2(%rsi,%r8), %ecx
	movb	%cl, -1(%rax,%r8)
	movzbl	3(%rsi,%r8), %ecx
	movb	%cl, (%rax,%r8)
	addq	$4, %r8
	cmpq	%r8, %rdx
	jne	.LBB2_1012
	jmp	.LBB2_1013
.LBB2_993:
	movq	%r13, (%rsp)
	movq	%rbx, %r13
	movq	%r14, %rbx
	movq	%r15, %r14
	movq	%rbp, %r15
	movq	%r11, %rbp
	callq	memmove@PLT
	movq	%rbp, %r11
	movq	%r15, %rbp
	movq	%r14, %r15
	movq	%rbx, %r14
	movq	%r13, %rbx
	movq	(%rsp), %r13
.LBB2_1013:
	cmpq	%r12, 496(%rsp)
	je	.LBB2_1015
.LBB2_1014:
	leaq	(%r12,%r12,2), %rax
	movq	%r15, (%r14,%rax,8)
	movq	%r11, 8(%r14,%rax,8)
	movq	%rbp, 16(%r14,%rax,8)
	incq	%r12
	movq	%r12, 488(%rsp)
	incq	%r13
	cmpq	$6, %r13
	leaq	848(%rsp), %r15
	jne	.LBB2_987
	jmp	.LBB2_1019
.LBB2_996:
	cmpq	$32, %rdx
	jae	.LBB2_1000
	xorl	%ecx, %ecx
	jmp	.LBB2_1004
.LBB2_998:
	leaq	840(%rsp), %rdi
	callq	"core::fmt::formatter::Formatter::write_indented::<#a09238b4ff3d99c5>"
	testb	%al, %al
	jne	.LBB2_1087
	movq	840(%rsp), %r15
	movq	848(%rsp), %r11
	movq	856(%rsp), %rbp
	jmp	.LBB2_1013
.LBB2_1000:
	movq	%rdx, %rcx
	andq	$-32, %rcx
	leaq	(%r15,%rax), %r8
	addq	$16, %r8
	xorl	%r9d, %r9d
.LBB2_1001:
	movdqu	(%rsi,%r9), %xmm0
	movdqu	16(%rsi,%r9), %xmm1
	movdqu	%xmm0, -16(%r8,%r9)
	movdqu	%xmm1, (%r8,%r9)
	addq	$32, %r9
	cmpq	%r9, %rcx
	jne	.LBB2_1001
	cmpq	%rcx, %rdx
	je	.LBB2_1013
	testb	$28, %dl
	je	.LBB2_1007
.LBB2_1004:
	movq	%rcx, %r8
	movq	%rdx, %rcx
	andq	$-4, %rcx
.LBB2_1005:
	movl	(%rsi,%r8), %r9d
	movl	%r9d, (%rdi,%r8)
	addq	$4, %r8
	cmpq	%r8, %rcx
	jne	.LBB2_1005
	cmpq	%rcx, %rdx
	je	.LBB2_1013
	jmp	.LBB2_1007
.LBB2_1015:
	movq	%r11, (%rsp)
	leaq	480(%rsp), %rdi
	callq	"std_alloc::vec::Vec::grow_amortized::<#0802a6bb4cff063a>"
	testb	%al, %al
	je	.LBB2_1344
	movq	480(%rsp), %r14
	movq	488(%rsp), %r12
	movq	(%rsp), %r11
	jmp	.LBB2_1014
.LBB2_1017:
	movq	%rsi, (%rsp)
	leaq	840(%rsp), %rdi
	movq	%rdx, 48(%rsp)
	movq	%rdx, %rsi
	callq	"std_alloc::vec::Vec::grow_amortized::<#1908c79f2a33ade2>"
	testb	%al, %al
	je	.LBB2_1087
	movq	840(%rsp), %r15
	movq	848(%rsp), %rax
	movq	856(%rsp), %rbp
	movq	48(%rsp), %rdx
	movq	(%rsp), %rsi
	jmp	.LBB2_990
.LBB2_1019:
	movl	$3, %edi
	movl	$1, %esi
	callq	rattle_alloc@PLT
	testb	$1, %al
	je	.LBB2_1042
	leaq	.Lstatic.69(%rip), %rax
	negq	%rax
	addq	%rdx, %rax
	addq	$-16, %rax
	cmpq	$2, %rax
	movq	8(%rsp), %rax
	leaq	8(%rax), %rbp
	ja	.LBB2_1082
	movw	$20037, (%rdx)
	movb	$68, 2(%rdx)
	jmp	.LBB2_1083
.LBB2_1022:
	movups	.Lstatic.76+64(%rip), %xmm0
	movups	%xmm0, 11(%rdx)
	movdqu	.Lstatic.76+53(%rip), %xmm0
	movdqu	%xmm0, (%rdx)
.LBB2_1023:
	movq	%rdx, 24(%r15)
	movq	$27, 32(%r15)
	movq	$27, 40(%r15)
	movl	$35, %edi
	movl	$1, %esi
	callq	rattle_alloc@PLT
	movl	$2, %r14d
	testb	$1, %al
	je	.LBB2_1026
	leaq	(%rdx,%rbx), %rax
	addq	$-80, %rax
	cmpq	$35, %rax
	jae	.LBB2_1062
	movaps	.LCPI2_22(%rip), %xmm0
	movups	%xmm0, (%rdx)
	movdqa	.LCPI2_23(%rip), %xmm0
	movdqu	%xmm0, 16(%rdx)
	movw	$29554, 32(%rdx)
	movb	$47, 34(%rdx)
	jmp	.LBB2_1063
.LBB2_1026:
	pxor	%xmm0, %xmm0
	movdqa	%xmm0, 736(%rsp)
	movdqa	%xmm0, 720(%rsp)
	movdqa	%xmm0, 704(%rsp)
	movdqa	%xmm0, 688(%rsp)
	movdqa	%xmm0, 672(%rsp)
	movdqa	%xmm0, 656(%rsp)
	shll	$3, %r14d
	leaq	(%r14,%r14,2), %rbx
	xorl	%r14d, %r14d
	jmp	.LBB2_1028
	.p2align	4
.LBB2_1027:
	addq	$24, %r14
	cmpq	%r14, %rbx
	je	.LBB2_893
.LBB2_1028:
	cmpq	$0, 16(%r15,%r14)
	je	.LBB2_1027
	movq	(%r15,%r14), %rdi
	callq	rattle_dealloc@PLT
	jmp	.LBB2_1027
.LBB2_1030:
	movd	.LCPI2_27(%rip), %xmm0
.LBB2_1031:
	je	.LBB2_1033
	movd	.LCPI2_28(%rip), %xmm1
	jmp	.LBB2_1034
.LBB2_1033:
	movd	.LCPI2_29(%rip), %xmm1
.LBB2_1034:
	je	.LBB2_1036
	movd	.LCPI2_30(%rip), %xmm2
	jmp	.LBB2_1037
.LBB2_1036:
	movd	.LCPI2_31(%rip), %xmm2
.LBB2_1037:
	punpckldq	%xmm2, %xmm1
	movd	(%r14), %xmm2
	punpckldq	%xmm0, %xmm2
	punpcklqdq	%xmm1, %xmm2
	movdqu	%xmm2, (%r15)
	cmpq	$16, %rax
	je	.LBB2_1066
	testl	$65536, %r13d
	cmoveq	%rcx, %rbx
	je	.LBB2_1064
	movd	.LCPI2_32(%rip), %xmm0
	jmp	.LBB2_1065
.LBB2_1040:
	leaq	80(%rsp), %rdi
	callq	"unftp_control_commands::epsv::make_epsv_reply"
	movzbl	80(%rsp), %r14d
	leaq	96(%rsp), %rax
	movups	104(%rax), %xmm0
	leaq	336(%rsp), %rsi
	movups	%xmm0, 104(%rsi)
	movups	88(%rax), %xmm0
	movups	%xmm0, 88(%rsi)
	movups	72(%rax), %xmm0
	movups	%xmm0, 72(%rsi)
	movups	56(%rax), %xmm0
	movups	%xmm0, 56(%rsi)
	movups	-8(%rax), %xmm0
	movups	8(%rax), %xmm1
	movups	24(%rax), %xmm2
	movups	40(%rax), %xmm3
	movups	%xmm3, 40(%rsi)
	movups	%xmm2, 24(%rsi)
	movups	%xmm1, 8(%rsi)
	movups	%xmm0, -8(%rsi)
	movzbl	328(%rsp), %r13d
	movzbl	329(%rsp), %eax
	movl	330(%rsp), %edx
	movzwl	334(%rsp), %ecx
	shlq	$32, %rcx
	orq	%rdx, %rcx
	movq	336(%rsp), %r15
	movq	344(%rsp), %rdi
	movq	352(%rsp), %rdx
	movq	%rdx, 48(%rsp)
	movq	360(%rsp), %r8
	movups	32(%rsi), %xmm0
	movdqu	48(%rsi), %xmm1
	movdqu	64(%rsi), %xmm2
	movdqu	80(%rsi), %xmm3
	movaps	%xmm0, 224(%rsp)
	movdqa	%xmm1, 240(%rsp)
	movdqa	%xmm2, 256(%rsp)
	movdqa	%xmm3, 272(%rsp)
	movdqu	96(%rsi), %xmm0
	movdqa	%xmm0, 288(%rsp)
	movq	112(%rsi), %rdx
	movq	%rdi, %rsi
	movq	%rdx, 304(%rsp)
	jmp	.LBB2_504
.LBB2_1041:
	movq	(%rsp), %rax
	movzbl	%al, %eax
	movq	%rax, 1312(%rsp)
	movq	72(%rsp), %rax
	movq	%rax, 1320(%rsp)
	movq	56(%rsp), %rax
	movq	%rax, 1328(%rsp)
	movq	%r12, 1336(%rsp)
	leaq	320(%rsp), %rdi
	leaq	1312(%rsp), %rsi
	callq	"control_demo::responses::answer_mlst"
	movzbl	320(%rsp), %r14d
	movzbl	328(%rsp), %r13d
	movzbl	329(%rsp), %eax
	movl	330(%rsp), %edx
	movzwl	334(%rsp), %ecx
	shlq	$32, %rcx
	orq	%rdx, %rcx
	movq	336(%rsp), %r15
	movq	344(%rsp), %rsi
	movq	352(%rsp), %rdx
	movq	%rdx, 48(%rsp)
	movq	360(%rsp), %r8
	leaq	336(%rsp), %rdx
	movups	32(%rdx), %xmm0
	movdqu	48(%rdx), %xmm1
	movdqu	64(%rdx), %xmm2
	movdqu	80(%rdx), %xmm3
	movaps	%xmm0, 224(%rsp)
	movdqa	%xmm1, 240(%rsp)
	movdqa	%xmm2, 256(%rsp)
	movdqa	%xmm3, 272(%rsp)
	movdqu	96(%rdx), %xmm0
	movdqa	%xmm0, 288(%rsp)
	movq	112(%rdx), %rdx
	movq	%rdx, 304(%rsp)
	jmp	.LBB2_504
.LBB2_1042:
	movq	8(%rsp), %rax
	leaq	8(%rax), %rbp
	movq	480(%rsp), %r14
	movq	496(%rsp), %r15
	testq	%r12, %r12
	je	.LBB2_1263
.LBB2_1043:
	leaq	16(%r14), %r13
	jmp	.LBB2_1045
.LBB2_1044:
	addq	$24, %r13
	decq	%r12
	je	.LBB2_1263
.LBB2_1045:
	cmpq	$0, (%r13)
	je	.LBB2_1044
	movq	-16(%r13), %rdi
	callq	rattle_dealloc@PLT
	jmp	.LBB2_1044
.LBB2_1047:
	movdqu	.Lstatic.93(%rip), %xmm0
.LBB2_1048:
	movdqu	%xmm0, (%rax)
	movb	$32, 16(%rax)
	addq	$17, %rsi
	movq	%rsi, 88(%rsp)
	movq	%r15, 96(%rsp)
	cmpq	$0, 128(%rsp)
	movq	(%rsp), %r14
	jne	.LBB2_1104
	movq	%r15, %rax
	subq	%rsi, %rax
	movq	72(%rsp), %rbx
	cmpq	%rax, %rbx
	ja	.LBB2_1113
.LBB2_1050:
	leaq	(%r12,%rsi), %rdi
	movq	%rdi, %rax
	subq	%r14, %rax
	cmpq	%rbx, %rax
	jae	.LBB2_1060
	cmpq	$4, %rbx
	jb	.LBB2_1053
	cmpq	$32, %rax
	jae	.LBB2_1085
.LBB2_1053:
	xorl	%eax, %eax
	movq	72(%rsp), %rbx
.LBB2_1054:
	movq	%rsi, %r8
	movq	%rax, %rcx
	andq	$3, %rbx
	je	.LBB2_1057
	movq	%rax, %rcx
.LBB2_1056:
	movzbl	(%r14,%rcx), %esi
	movb	%sil, (%rdi,%rcx)
	incq	%rcx
	decq	%rbx
	jne	.LBB2_1056
.LBB2_1057:
	movq	72(%rsp), %rbx
	subq	%rbx, %rax
	cmpq	$-4, %rax
	movq	%r8, %rsi
	ja	.LBB2_1061
	leaq	(%r12,%rsi), %rax
	addq	$3, %rax
.LBB2_1059:
	movzbl	(%r14,%rcx), %edx
	movb	%dl, -3(%rax,%rcx)
	movzbl	1(%r14,%rcx), %edx
	movb	%dl, -2(%rax,%rcx)
	movzbl	2(%r14,%rcx), %edx
	movb	%dl, -1(%rax,%rcx)
	movzbl	3(%r14,%rcx), %edx
	movb	%dl, (%rax,%rcx)
	addq	$4, %rcx
	cmpq	%rcx, %rbx
	jne	.LBB2_1059
	jmp	.LBB2_1061
.LBB2_1060:
	movq	%rsi, 40(%rsp)
	movq	%r14, %rsi
	movq	%rbx, %rdx
	callq	memmove@PLT
	movq	40(%rsp), %rsi
.LBB2_1061:
	addq	%rbx, %rsi
	movq	%r15, 96(%rsp)
	movq	96(%rsp), %rax
	movq	%rax, 48(%rsp)
	cmpb	$6, %r13b
	je	.LBB2_982
	jmp	.LBB2_984
.LBB2_1062:
	movups	.Lstatic.76+96(%rip), %xmm0
	movups	%xmm0, 16(%rdx)
	movdqu	.Lstatic.76+80(%rip), %xmm0
	movdqu	%xmm0, (%rdx)
	movl	$796095022, 31(%rdx)
.LBB2_1063:
	leaq	336(%rsp), %rax
	movq	%rdx, 48(%r15)
	movq	$35, 56(%r15)
	movq	$35, 64(%r15)
	pxor	%xmm0, %xmm0
	movdqa	%xmm0, 736(%rsp)
	movdqa	%xmm0, 720(%rsp)
	movdqa	%xmm0, 704(%rsp)
	movdqa	%xmm0, 688(%rsp)
	movdqa	%xmm0, 672(%rsp)
	movdqa	%xmm0, 656(%rsp)
	movl	$3074, %r13d
	movl	$3, %esi
	xorl	%r14d, %r14d
	jmp	.LBB2_895
.LBB2_1064:
	movd	.LCPI2_33(%rip), %xmm0
.LBB2_1065:
	movl	20(%rbx), %ecx
	movd	%xmm0, 16(%r15)
	movl	%ecx, 20(%r15)
.LBB2_1066:
	movq	%r12, %r8
	movq	%rax, %rcx
	andq	$1, %r12
	movq	%r15, %rdi
	je	.LBB2_1069
	movq	%rax, %rcx
	.p2align	4
.LBB2_1068:
	movzbl	(%r14,%rcx), %esi
	movb	%sil, (%rdi,%rcx)
	incq	%rcx
	decq	%r12
	jne	.LBB2_1068
.LBB2_1069:
	movq	%r8, %rsi
	subl	%esi, %eax
	cmpl	$-4, %eax
	ja	.LBB2_1071
	.p2align	4
.LBB2_1070:
	movl	(%r14,%rcx), %eax
	movl	%eax, (%rdi,%rcx)
	addq	$4, %rcx
	cmpq	%rcx, %rsi
	jne	.LBB2_1070
.LBB2_1071:
	testl	$65536, %r13d
	movl	$9729, %eax
	movl	$1793, %r13d
	jmp	.LBB2_1079
.LBB2_1072:
	movq	%rbx, %r8
.LBB2_1073:
	movl	$2, %edx
	subl	%eax, %edx
	movq	%rax, %rcx
	andl	$3, %edx
	movq	%r15, %rdi
	je	.LBB2_1076
	movq	%rax, %rcx
	.p2align	4
.LBB2_1075:
	movzbl	(%r14,%rcx), %esi
	movb	%sil, (%rdi,%rcx)
	incq	%rcx
	decq	%rdx
	jne	.LBB2_1075
.LBB2_1076:
	movq	%r8, %rsi
	subl	%esi, %eax
	cmpl	$-4, %eax
	ja	.LBB2_1078
	.p2align	4
.LBB2_1077:
	movl	(%r14,%rcx), %eax
	movl	%eax, (%rdi,%rcx)
	addq	$4, %rcx
	cmpq	%rcx, %rsi
	jne	.LBB2_1077
.LBB2_1078:
	testl	$65280, %r13d
	movl	$1793, %eax
	movl	$9729, %r13d
.LBB2_1079:
	cmoveq	%rax, %r13
	pxor	%xmm0, %xmm0
	movdqa	%xmm0, 160(%rsp)
	movdqa	%xmm0, 144(%rsp)
	movdqa	%xmm0, 128(%rsp)
	movdqa	%xmm0, 112(%rsp)
	movdqa	%xmm0, 96(%rsp)
	movdqa	%xmm0, 80(%rsp)
	xorl	%r14d, %r14d
.LBB2_1080:
	movaps	160(%rsp), %xmm0
	leaq	336(%rsp), %rcx
	movups	%xmm0, 104(%rcx)
	movaps	144(%rsp), %xmm0
	movups	%xmm0, 88(%rcx)
	movaps	80(%rsp), %xmm0
	movaps	96(%rsp), %xmm1
	movaps	112(%rsp), %xmm2
	movaps	128(%rsp), %xmm3
	movups	%xmm3, 72(%rcx)
	movups	%xmm2, 56(%rcx)
	movups	%xmm1, 40(%rcx)
	movups	%xmm0, 24(%rcx)
	movl	%r13d, %eax
	shrl	$8, %eax
	movq	360(%rsp), %r8
	movups	32(%rcx), %xmm0
	movdqu	48(%rcx), %xmm1
	movdqu	64(%rcx), %xmm2
	movdqu	80(%rcx), %xmm3
	movaps	%xmm0, 224(%rsp)
	movdqa	%xmm1, 240(%rsp)
	movdqa	%xmm2, 256(%rsp)
	movdqa	%xmm3, 272(%rsp)
	movdqu	96(%rcx), %xmm0
	movdqa	%xmm0, 288(%rsp)
	movq	112(%rcx), %rcx
.LBB2_1081:
	movq	%rcx, 304(%rsp)
	jmp	.LBB2_503
.LBB2_1082:
	movb	$68, 2(%rdx)
	movw	$20037, (%rdx)
.LBB2_1083:
	cmpq	%r12, 496(%rsp)
	je	.LBB2_1116
.LBB2_1084:
	movq	480(%rsp), %rax
	leaq	(%r12,%r12,2), %rcx
	movq	%rdx, (%rax,%rcx,8)
	movq	$3, 8(%rax,%rcx,8)
	movq	$3, 16(%rax,%rcx,8)
	incq	%r12
	movq	%r12, 488(%rsp)
	movq	496(%rsp), %rax
	movq	%rax, 96(%rsp)
	movdqu	480(%rsp), %xmm0
	movdqa	%xmm0, 80(%rsp)
	movaps	112(%rsp), %xmm1
	movdqa	128(%rsp), %xmm2
	movdqa	144(%rsp), %xmm3
	movdqa	160(%rsp), %xmm4
	movaps	%xmm1, 544(%rsp)
	movdqa	%xmm2, 560(%rsp)
	movdqa	%xmm3, 576(%rsp)
	movdqa	%xmm4, 592(%rsp)
	movdqa	176(%rsp), %xmm1
	movdqa	%xmm1, 608(%rsp)
	movq	192(%rsp), %rax
	movq	%rax, 624(%rsp)
	movdqa	%xmm0, 512(%rsp)
	movq	96(%rsp), %rax
	movq	%rax, 528(%rsp)
	movq	104(%rsp), %rax
	movq	%rax, 536(%rsp)
	movl	$2306, %r13d
	xorl	%r14d, %r14d
	jmp	.LBB2_1266
.LBB2_1085:
	movq	72(%rsp), %rbx
	cmpq	$32, %rbx
	jae	.LBB2_1106
	xorl	%eax, %eax
	jmp	.LBB2_1110
.LBB2_1087:
	cmpq	$0, 856(%rsp)
	je	.LBB2_1089
	movq	840(%rsp), %rdi
	callq	rattle_dealloc@PLT
.LBB2_1089:
	movq	8(%rsp), %rax
	leaq	8(%rax), %rbp
.LBB2_1090:
	movq	480(%rsp), %r14
	movq	488(%rsp), %r12
	movq	496(%rsp), %r15
	testq	%r12, %r12
	je	.LBB2_1263
	leaq	16(%r14), %r13
	jmp	.LBB2_1093
.LBB2_1092:
	addq	$24, %r13
	decq	%r12
	je	.LBB2_1263
.LBB2_1093:
	cmpq	$0, (%r13)
	je	.LBB2_1092
	movq	-16(%r13), %rdi
	callq	rattle_dealloc@PLT
	jmp	.LBB2_1092
.LBB2_1095:
	xorl	%r15d, %r15d
	movq	%r14, %rbp
	movq	$0, 40(%rsp)
.LBB2_1096:
	movq	8(%rsp), %r9
	movq	48(%rsp), %r13
	testq	%r13, %r13
	jne	.LBB2_1122
	jmp	.LBB2_1491
.LBB2_1097:
	movl	$1, %edi
	leaq	16(%rsp), %r15
	xorl	%ebx, %ebx
	jmp	.LBB2_1102
.LBB2_1098:
	xorl	%r15d, %r15d
	movq	%r14, %rbp
	movq	$0, 40(%rsp)
.LBB2_1099:
	movq	8(%rsp), %r9
	movq	48(%rsp), %r13
	testq	%r13, %r13
	jne	.LBB2_1170
	jmp	.LBB2_1491
.LBB2_1100:
	movq	%rdx, %r15
	movq	%rdx, %rdi
	movq	%rbx, %rdx
	callq	memmove@PLT
.LBB2_1101:
	movl	$1, %edi
.LBB2_1102:
	movq	8(%rsp), %r9
.LBB2_1103:
	testq	%rbx, %rbx
	sete	36(%rsp)
	movq	$0, 48(%rsp)
	xorl	%r8d, %r8d
	movq	$0, (%rsp)
	xorl	%eax, %eax
	xorl	%r13d, %r13d
	xorl	%ebp, %ebp
	movq	%rdi, %rcx
	movq	%r15, %rbx
	jmp	.LBB2_1261
.LBB2_1159:
	movq	%rdx, %rdi
	movq	%rdx, %r13
	movq	%rbx, %rdx
	callq	memmove@PLT
	movq	%r13, (%rsp)
	movq	%rbx, %rdx
.LBB2_426:
	movq	8(%rsp), %r9
	movq	24(%rsp), %r14
.LBB2_427:
	movb	$1, 36(%rsp)
	movq	$0, 48(%rsp)
	xorl	%r8d, %r8d
	movq	%rbx, %rax
	xorl	%ebp, %ebp
	xorl	%ecx, %ecx
	xorl	%ebx, %ebx
	movq	%rdx, %r13
	jmp	.LBB2_1261
.LBB2_1104:
	leaq	80(%rsp), %rdi
	movq	%r14, %rsi
	movq	72(%rsp), %rdx
	callq	"core::fmt::formatter::Formatter::write_indented::<#a09238b4ff3d99c5>"
	testb	%al, %al
	jne	.LBB2_1536
	movq	80(%rsp), %r12
	movq	88(%rsp), %rsi
	jmp	.LBB2_980
.LBB2_1106:
	movq	%rbx, %rax
	andq	$-32, %rax
	leaq	(%r12,%rsi), %rcx
	addq	$16, %rcx
	xorl	%edx, %edx
.LBB2_1107:
	movdqu	(%r14,%rdx), %xmm0
	movdqu	16(%r14,%rdx), %xmm1
	movdqu	%xmm0, -16(%rcx,%rdx)
	movdqu	%xmm1, (%rcx,%rdx)
	addq	$32, %rdx
	cmpq	%rdx, %rax
	jne	.LBB2_1107
	movq	72(%rsp), %rbx
	cmpq	%rax, %rbx
	je	.LBB2_1061
	testb	$28, %bl
	je	.LBB2_1054
.LBB2_1110:
	movq	%rax, %rcx
	movq	%rbx, %rax
	andq	$-4, %rax
.LBB2_1111:
	movl	(%r14,%rcx), %edx
	movl	%edx, (%rdi,%rcx)
	addq	$4, %rcx
	cmpq	%rcx, %rax
	jne	.LBB2_1111
	movq	72(%rsp), %rbx
	cmpq	%rax, %rbx
	jne	.LBB2_1054
	jmp	.LBB2_1061
.LBB2_1113:
	leaq	80(%rsp), %rdi
	movq	%rbx, %rsi
	callq	"std_alloc::vec::Vec::grow_amortized::<#1908c79f2a33ade2>"
	testb	%al, %al
	je	.LBB2_1536
	movq	80(%rsp), %r12
	movq	88(%rsp), %rsi
	movq	96(%rsp), %r15
	movq	(%rsp), %r14
	movq	72(%rsp), %rbx
	jmp	.LBB2_1050
.LBB2_1115:
	movq	%r11, %rbx
	leaq	4(%rbp), %rdi
	leaq	-4(%r14), %rsi
	callq	"unftp_control_codecs::line_parser::parser::word_len"
	addq	$4, %rax
	jmp	.LBB2_85
.LBB2_1116:
	movq	%rdx, %r14
	leaq	480(%rsp), %rdi
	callq	"std_alloc::vec::Vec::grow_amortized::<#0802a6bb4cff063a>"
	testb	%al, %al
	je	.LBB2_1262
	movq	488(%rsp), %r12
	movq	%r14, %rdx
	jmp	.LBB2_1084
.LBB2_1118:
	movq	%rbp, %rdi
	movq	%r15, %rdx
	callq	memmove@PLT
	movq	%r15, 40(%rsp)
.LBB2_1119:
	movq	8(%rsp), %r9
	movl	%ebx, %r10d
.LBB2_1120:
	movq	48(%rsp), %r13
	movq	56(%rsp), %r11
	testq	%r13, %r13
	je	.LBB2_1491
.LBB2_1122:
	js	.LBB2_1554
	movq	%r11, %r12
	movl	%r10d, %ebx
	movl	$1, %esi
	movq	%r13, %rdi
	callq	rattle_alloc@PLT
	testb	$1, %al
	je	.LBB2_1554
	movq	%rdx, %r14
	movq	%rdx, %rax
	movq	%r12, %rsi
	subq	%r12, %rax
	cmpq	%r13, %rax
	jae	.LBB2_1129
	xorl	%eax, %eax
	cmpq	$4, %r13
	jb	.LBB2_1130
	movq	%r14, %rcx
	subq	%rsi, %rcx
	cmpq	$32, %rcx
	movq	8(%rsp), %r9
	movl	%ebx, %r10d
	jb	.LBB2_1138
	movabsq	$9223372036854775776, %rcx
	cmpq	$32, %r13
	jae	.LBB2_1131
	xorl	%eax, %eax
	jmp	.LBB2_1135
.LBB2_1129:
	movq	%r14, %rdi
	movq	%r13, %rdx
	callq	memmove@PLT
	movq	8(%rsp), %r9
	movl	%ebx, %r10d
	jmp	.LBB2_1143
.LBB2_1130:
	movq	8(%rsp), %r9
	movl	%ebx, %r10d
	jmp	.LBB2_1138
.LBB2_1131:
	movq	%r13, %rax
	andq	%rcx, %rax
	xorl	%edx, %edx
.LBB2_1132:
	movdqu	(%rsi,%rdx), %xmm0
	movdqu	16(%rsi,%rdx), %xmm1
	movdqu	%xmm0, (%r14,%rdx)
	movdqu	%xmm1, 16(%r14,%rdx)
	addq	$32, %rdx
	cmpq	%rdx, %rax
	jne	.LBB2_1132
	cmpq	%rax, %r13
	je	.LBB2_1143
	testb	$28, %r13b
	je	.LBB2_1138
.LBB2_1135:
	movq	%rax, %rdx
	addq	$28, %rcx
	movq	%rcx, %rax
	andq	%r13, %rax
.LBB2_1136:
	movl	(%rsi,%rdx), %ecx
	movl	%ecx, (%r14,%rdx)
	addq	$4, %rdx
	cmpq	%rdx, %rax
	jne	.LBB2_1136
	cmpq	%rax, %r13
	je	.LBB2_1143
.LBB2_1138:
	movq	%r13, %rdx
	movq	%rax, %rcx
	andq	$3, %rdx
	je	.LBB2_1141
	movq	%rax, %rcx
.LBB2_1140:
	movzbl	(%rsi,%rcx), %edi
	movb	%dil, (%r14,%rcx)
	incq	%rcx
	decq	%rdx
	jne	.LBB2_1140
.LBB2_1141:
	subq	%r13, %rax
	cmpq	$-4, %rax
	ja	.LBB2_1143
.LBB2_1142:
	movzbl	(%rsi,%rcx), %eax
	movb	%al, (%r14,%rcx)
	movzbl	1(%rsi,%rcx), %eax
	movb	%al, 1(%r14,%rcx)
	movzbl	2(%rsi,%rcx), %eax
	movb	%al, 2(%r14,%rcx)
	movzbl	3(%rsi,%rcx), %eax
	movb	%al, 3(%r14,%rcx)
	addq	$4, %rcx
	cmpq	%rcx, %r13
	jne	.LBB2_1142
.LBB2_1143:
	cmpq	$8, %r13
	jae	.LBB2_1145
	xorl	%eax, %eax
	jmp	.LBB2_1493
.LBB2_1145:
	movabsq	$9223372036854775776, %rcx
	cmpq	$32, %r13
	jae	.LBB2_1147
	xorl	%eax, %eax
	jmp	.LBB2_1151
.LBB2_1147:
	movq	%r13, %rax
	andq	%rcx, %rax
	xorl	%edx, %edx
.LBB2_1148:
	movdqu	(%r14,%rdx), %xmm0
	movdqu	16(%r14,%rdx), %xmm1
	movdqa	.LCPI2_6(%rip), %xmm2
	movdqa	%xmm0, %xmm3
	paddb	%xmm2, %xmm3
	paddb	%xmm1, %xmm2
	movdqa	.LCPI2_7(%rip), %xmm4
	movdqa	%xmm3, %xmm5
	pminub	%xmm4, %xmm5
	pcmpeqb	%xmm3, %xmm5
	pminub	%xmm2, %xmm4
	pcmpeqb	%xmm2, %xmm4
	movdqa	.LCPI2_8(%rip), %xmm2
	pand	%xmm2, %xmm5
	paddb	%xmm0, %xmm5
	pand	%xmm2, %xmm4
	paddb	%xmm1, %xmm4
	movdqu	%xmm5, (%r14,%rdx)
	movdqu	%xmm4, 16(%r14,%rdx)
	addq	$32, %rdx
	cmpq	%rdx, %rax
	jne	.LBB2_1148
	cmpq	%rax, %r13
	je	.LBB2_1491
	testb	$24, %r13b
	je	.LBB2_1493
.LBB2_1151:
	movq	%rax, %rdx
	addq	$24, %rcx
	movq	%rcx, %rax
	andq	%r13, %rax
.LBB2_1152:
	movq	(%r14,%rdx), %xmm0
	movdqa	.LCPI2_9(%rip), %xmm1
	paddb	%xmm0, %xmm1
	movdqa	.LCPI2_10(%rip), %xmm2
	pmaxub	%xmm1, %xmm2
	pcmpeqb	%xmm1, %xmm2
	pandn	.LCPI2_11(%rip), %xmm2
	paddb	%xmm0, %xmm2
	movq	%xmm2, (%r14,%rdx)
	addq	$8, %rdx
	cmpq	%rdx, %rax
	jne	.LBB2_1152
	jmp	.LBB2_1492
.LBB2_1166:
	movq	%rbp, %rdi
	movq	%r15, %rdx
	callq	memmove@PLT
	movq	%r15, 40(%rsp)
.LBB2_1167:
	movq	8(%rsp), %r9
	movl	%ebx, %r10d
.LBB2_1168:
	movq	48(%rsp), %r13
	movq	56(%rsp), %r11
	testq	%r13, %r13
	je	.LBB2_1491
.LBB2_1170:
	js	.LBB2_1554
	movq	%r11, %r12
	movl	%r10d, %ebx
	movl	$1, %esi
	movq	%r13, %rdi
	callq	rattle_alloc@PLT
	testb	$1, %al
	je	.LBB2_1554
	movq	%rdx, %r14
	movq	%rdx, %rax
	movq	%r12, %rsi
	subq	%r12, %rax
	cmpq	%r13, %rax
	jae	.LBB2_1177
	xorl	%eax, %eax
	cmpq	$4, %r13
	jb	.LBB2_1178
	movq	%r14, %rcx
	subq	%rsi, %rcx
	cmpq	$32, %rcx
	movq	8(%rsp), %r9
	movl	%ebx, %r10d
	jb	.LBB2_1186
	movabsq	$9223372036854775776, %rcx
	cmpq	$32, %r13
	jae	.LBB2_1179
	xorl	%eax, %eax
	jmp	.LBB2_1183
.LBB2_1177:
	movq	%r14, %rdi
	movq	%r13, %rdx
	callq	memmove@PLT
	movq	8(%rsp), %r9
	movl	%ebx, %r10d
	jmp	.LBB2_1191
.LBB2_1178:
	movq	8(%rsp), %r9
	movl	%ebx, %r10d
	jmp	.LBB2_1186
.LBB2_1179:
	movq	%r13, %rax
	andq	%rcx, %rax
	xorl	%edx, %edx
.LBB2_1180:
	movdqu	(%rsi,%rdx), %xmm0
	movdqu	16(%rsi,%rdx), %xmm1
	movdqu	%xmm0, (%r14,%rdx)
	movdqu	%xmm1, 16(%r14,%rdx)
	addq	$32, %rdx
	cmpq	%rdx, %rax
	jne	.LBB2_1180
	cmpq	%rax, %r13
	je	.LBB2_1191
	testb	$28, %r13b
	je	.LBB2_1186
.LBB2_1183:
	movq	%rax, %rdx
	addq	$28, %rcx
	movq	%rcx, %rax
	andq	%r13, %rax
.LBB2_1184:
	movl	(%rsi,%rdx), %ecx
	movl	%ecx, (%r14,%rdx)
	addq	$4, %rdx
	cmpq	%rdx, %rax
	jne	.LBB2_1184
	cmpq	%rax, %r13
	je	.LBB2_1191
.LBB2_1186:
	movq	%r13, %rdx
	movq	%rax, %rcx
	andq	$3, %rdx
	je	.LBB2_1189
	movq	%rax, %rcx
.LBB2_1188:
	movzbl	(%rsi,%rcx), %edi
	movb	%dil, (%r14,%rcx)
	incq	%rcx
	decq	%rdx
	jne	.LBB2_1188
.LBB2_1189:
	subq	%r13, %rax
	cmpq	$-4, %rax
	ja	.LBB2_1191
.LBB2_1190:
	movzbl	(%rsi,%rcx), %eax
	movb	%al, (%r14,%rcx)
	movzbl	1(%rsi,%rcx), %eax
	movb	%al, 1(%r14,%rcx)
	movzbl	2(%rsi,%rcx), %eax
	movb	%al, 2(%r14,%rcx)
	movzbl	3(%rsi,%rcx), %eax
	movb	%al, 3(%r14,%rcx)
	addq	$4, %rcx
	cmpq	%rcx, %r13
	jne	.LBB2_1190
.LBB2_1191:
	cmpq	$8, %r13
	jae	.LBB2_1193
	xorl	%eax, %eax
	jmp	.LBB2_1489
.LBB2_1193:
	movabsq	$9223372036854775776, %rcx
	cmpq	$32, %r13
	jae	.LBB2_1195
	xorl	%eax, %eax
	jmp	.LBB2_1199
.LBB2_1195:
	movq	%r13, %rax
	andq	%rcx, %rax
	xorl	%edx, %edx
.LBB2_1196:
	movdqu	(%r14,%rdx), %xmm0
	movdqu	16(%r14,%rdx), %xmm1
	movdqa	.LCPI2_6(%rip), %xmm2
	movdqa	%xmm0, %xmm3
	paddb	%xmm2, %xmm3
	paddb	%xmm1, %xmm2
	movdqa	.LCPI2_7(%rip), %xmm4
	movdqa	%xmm3, %xmm5
	pminub	%xmm4, %xmm5
	pcmpeqb	%xmm3, %xmm5
	pminub	%xmm2, %xmm4
	pcmpeqb	%xmm2, %xmm4
	movdqa	.LCPI2_8(%rip), %xmm2
	pand	%xmm2, %xmm5
	paddb	%xmm0, %xmm5
	pand	%xmm2, %xmm4
	paddb	%xmm1, %xmm4
	movdqu	%xmm5, (%r14,%rdx)
	movdqu	%xmm4, 16(%r14,%rdx)
	addq	$32, %rdx
	cmpq	%rdx, %rax
	jne	.LBB2_1196
	cmpq	%rax, %r13
	je	.LBB2_1491
	testb	$24, %r13b
	je	.LBB2_1489
.LBB2_1199:
	movq	%rax, %rdx
	addq	$24, %rcx
	movq	%rcx, %rax
	andq	%r13, %rax
.LBB2_1200:
	movq	(%r14,%rdx), %xmm0
	movdqa	.LCPI2_9(%rip), %xmm1
	paddb	%xmm0, %xmm1
	movdqa	.LCPI2_10(%rip), %xmm2
	pmaxub	%xmm1, %xmm2
	pcmpeqb	%xmm1, %xmm2
	pandn	.LCPI2_11(%rip), %xmm2
	paddb	%xmm0, %xmm2
	movq	%xmm2, (%r14,%rdx)
	addq	$8, %rdx
	cmpq	%rdx, %rax
	jne	.LBB2_1200
	jmp	.LBB2_1490
.LBB2_1201:
	movq	8(%rsp), %r9
	jmp	.LBB2_1209
.LBB2_1202:
	movq	%rbx, %rax
	andq	%rcx, %rax
	xorl	%edx, %edx
.LBB2_1203:
	movdqu	(%rsi,%rdx), %xmm0
	movdqu	16(%rsi,%rdx), %xmm1
	movdqu	%xmm0, (%r13,%rdx)
	movdqu	%xmm1, 16(%r13,%rdx)
	addq	$32, %rdx
	cmpq	%rdx, %rax
	jne	.LBB2_1203
	cmpq	%rax, %rbx
	je	.LBB2_1251
	testb	$28, %bl
	je	.LBB2_1209
.LBB2_1206:
	movq	%rax, %rdx
	addq	$28, %rcx
	movq	%rcx, %rax
	andq	%rbx, %rax
.LBB2_1207:
	movl	(%rsi,%rdx), %ecx
	movl	%ecx, (%r13,%rdx)
	addq	$4, %rdx
	cmpq	%rdx, %rax
	jne	.LBB2_1207
	cmpq	%rax, %rbx
	je	.LBB2_1251
.LBB2_1209:
	movq	%rbx, %rcx
	movq	%rax, %rdx
	andq	$3, %rcx
	je	.LBB2_1212
	movq	%rax, %rdx
.LBB2_1211:
	movzbl	(%rsi,%rdx), %edi
	movb	%dil, (%r13,%rdx)
	incq	%rdx
	decq	%rcx
	jne	.LBB2_1211
.LBB2_1212:
	subq	%rbx, %rax
	movl	$1, %ecx
	cmpq	$-4, %rax
	ja	.LBB2_1257
.LBB2_1213:
	movzbl	(%rsi,%rdx), %eax
	movb	%al, (%r13,%rdx)
	movzbl	1(%rsi,%rdx), %eax
	movb	%al, 1(%r13,%rdx)
	movzbl	2(%rsi,%rdx), %eax
	movb	%al, 2(%r13,%rdx)
	movzbl	3(%rsi,%rdx), %eax
	movb	%al, 3(%r13,%rdx)
	addq	$4, %rdx
	cmpq	%rdx, %rbx
	jne	.LBB2_1213
	jmp	.LBB2_1257
.LBB2_1214:
	movq	8(%rsp), %r9
	jmp	.LBB2_1223
.LBB2_1215:
	movq	8(%rsp), %r9
	jmp	.LBB2_1236
.LBB2_1216:
	movq	%rbx, %rax
	andq	%rcx, %rax
	xorl	%edx, %edx
.LBB2_1217:
	movdqu	(%rsi,%rdx), %xmm0
	movdqu	16(%rsi,%rdx), %xmm1
	movdqu	%xmm0, (%r13,%rdx)
	movdqu	%xmm1, 16(%r13,%rdx)
	addq	$32, %rdx
	cmpq	%rdx, %rax
	jne	.LBB2_1217
	cmpq	%rax, %rbx
	je	.LBB2_1251
	testb	$28, %bl
	je	.LBB2_1223
.LBB2_1220:
	movq	%rax, %rdx
	addq	$28, %rcx
	movq	%rcx, %rax
	andq	%rbx, %rax
.LBB2_1221:
	movl	(%rsi,%rdx), %ecx
	movl	%ecx, (%r13,%rdx)
	addq	$4, %rdx
	cmpq	%rdx, %rax
	jne	.LBB2_1221
	cmpq	%rax, %rbx
	je	.LBB2_1251
.LBB2_1223:
	movq	%rbx, %rcx
	movq	%rax, %rdx
	andq	$3, %rcx
	je	.LBB2_1226
	movq	%rax, %rdx
.LBB2_1225:
	movzbl	(%rsi,%rdx), %edi
	movb	%dil, (%r13,%rdx)
	incq	%rdx
	decq	%rcx
	jne	.LBB2_1225
.LBB2_1226:
	subq	%rbx, %rax
	movl	$1, %ecx
	cmpq	$-4, %rax
	ja	.LBB2_1257
.LBB2_1227:
	movzbl	(%rsi,%rdx), %eax
	movb	%al, (%r13,%rdx)
	movzbl	1(%rsi,%rdx), %eax
	movb	%al, 1(%r13,%rdx)
	movzbl	2(%rsi,%rdx), %eax
	movb	%al, 2(%r13,%rdx)
	movzbl	3(%rsi,%rdx), %eax
	movb	%al, 3(%r13,%rdx)
	addq	$4, %rdx
	cmpq	%rdx, %rbx
	jne	.LBB2_1227
	jmp	.LBB2_1257
.LBB2_1228:
	movq	%rbx, %rax
	andq	%rcx, %rax
	xorl	%edi, %edi
.LBB2_1229:
	movdqu	(%rsi,%rdi), %xmm0
	movdqu	16(%rsi,%rdi), %xmm1
	movdqu	%xmm0, (%rdx,%rdi)
	movdqu	%xmm1, 16(%rdx,%rdi)
	addq	$32, %rdi
	cmpq	%rdi, %rax
	jne	.LBB2_1229
	cmpq	%rax, %rbx
	je	.LBB2_1235
	testb	$28, %bl
	je	.LBB2_1236
.LBB2_1232:
	movq	%rax, %rdi
	addq	$28, %rcx
	movq	%rcx, %rax
	andq	%rbx, %rax
.LBB2_1233:
	movl	(%rsi,%rdi), %ecx
	movl	%ecx, (%rdx,%rdi)
	addq	$4, %rdi
	cmpq	%rdi, %rax
	jne	.LBB2_1233
	cmpq	%rax, %rbx
	jne	.LBB2_1236
.LBB2_1235:
	movq	%rdx, %r15
	movl	$1, %edi
	jmp	.LBB2_1103
.LBB2_1236:
	movq	%rbx, %r8
	movq	%rax, %rcx
	andq	$3, %r8
	je	.LBB2_1239
	movq	%rax, %rcx
.LBB2_1238:
	movzbl	(%rsi,%rcx), %edi
	movb	%dil, (%rdx,%rcx)
	incq	%rcx
	decq	%r8
	jne	.LBB2_1238
.LBB2_1239:
	subq	%rbx, %rax
	movl	$1, %edi
	cmpq	$-4, %rax
	ja	.LBB2_1240
.LBB2_1241:
	movzbl	(%rsi,%rcx), %eax
	movb	%al, (%rdx,%rcx)
	movzbl	1(%rsi,%rcx), %eax
	movb	%al, 1(%rdx,%rcx)
	movzbl	2(%rsi,%rcx), %eax
	movb	%al, 2(%rdx,%rcx)
	movzbl	3(%rsi,%rcx), %eax
	movb	%al, 3(%rdx,%rcx)
	addq	$4, %rcx
	cmpq	%rcx, %rbx
	jne	.LBB2_1241
.LBB2_1240:
	movq	%rdx, %r15
	jmp	.LBB2_1103
.LBB2_1243:
	movq	8(%rsp), %r9
	jmp	.LBB2_1252
.LBB2_1244:
	movq	%rbx, %rax
	andq	%rcx, %rax
	xorl	%edx, %edx
.LBB2_1245:
	movdqu	(%rsi,%rdx), %xmm0
	movdqu	16(%rsi,%rdx), %xmm1
	movdqu	%xmm0, (%r13,%rdx)
	movdqu	%xmm1, 16(%r13,%rdx)
	addq	$32, %rdx
	cmpq	%rdx, %rax
	jne	.LBB2_1245
	cmpq	%rax, %rbx
	je	.LBB2_1251
	testb	$28, %bl
	je	.LBB2_1252
.LBB2_1248:
	movq	%rax, %rdx
	addq	$28, %rcx
	movq	%rcx, %rax
	andq	%rbx, %rax
.LBB2_1249:
	movl	(%rsi,%rdx), %ecx
	movl	%ecx, (%r13,%rdx)
	addq	$4, %rdx
	cmpq	%rdx, %rax
	jne	.LBB2_1249
	cmpq	%rax, %rbx
	jne	.LBB2_1252
.LBB2_1251:
	movq	%r13, %rax
	movl	$1, %ecx
	jmp	.LBB2_1258
.LBB2_1252:
	movq	%rbx, %rcx
	movq	%rax, %rdx
	andq	$3, %rcx
	je	.LBB2_1255
	movq	%rax, %rdx
.LBB2_1254:
	movzbl	(%rsi,%rdx), %edi
	movb	%dil, (%r13,%rdx)
	incq	%rdx
	decq	%rcx
	jne	.LBB2_1254
.LBB2_1255:
	subq	%rbx, %rax
	movl	$1, %ecx
	cmpq	$-4, %rax
	ja	.LBB2_1257
.LBB2_1256:
	movzbl	(%rsi,%rdx), %eax
	movb	%al, (%r13,%rdx)
	movzbl	1(%rsi,%rdx), %eax
	movb	%al, 1(%r13,%rdx)
	movzbl	2(%rsi,%rdx), %eax
	movb	%al, 2(%r13,%rdx)
	movzbl	3(%rsi,%rdx), %eax
	movb	%al, 3(%r13,%rdx)
	addq	$4, %rdx
	cmpq	%rdx, %rbx
	jne	.LBB2_1256
.LBB2_1257:
	movq	%r13, %rax
.LBB2_1258:
	movq	%rbx, %rbp
.LBB2_1259:
	movb	$1, 36(%rsp)
	movq	$0, 48(%rsp)
	xorl	%r8d, %r8d
	movq	%rcx, (%rsp)
	movq	%rbx, %r13
.LBB2_1260:
	xorl	%ecx, %ecx
	xorl	%ebx, %ebx
.LBB2_1261:
	movl	%ebp, %r12d
	shrl	$8, %r12d
	movq	%rbp, %r10
	andq	$-65536, %r10
	movzbl	%r8b, %edx
	shll	$16, %edx
	movzbl	48(%rsp), %r11d
	shll	$8, %r11d
	orl	%edx, %r11d
	movzbl	%bpl, %edi
	movb	$1, %dl
	movq	%rax, 72(%rsp)
	movq	%r13, 56(%rsp)
	movq	%rcx, 40(%rsp)
	movq	%rbx, %r15
	movzbl	64(%rsp), %esi
	jmp	.LBB2_486
.LBB2_1262:
	movq	%r14, %rdi
	callq	rattle_dealloc@PLT
	movq	488(%rsp), %r12
	movq	480(%rsp), %r14
	movq	496(%rsp), %r15
	testq	%r12, %r12
	jne	.LBB2_1043
.LBB2_1263:
	testq	%r15, %r15
	je	.LBB2_1265
.LBB2_1264:
	movq	%r14, %rdi
	callq	rattle_dealloc@PLT
.LBB2_1265:
	pxor	%xmm0, %xmm0
	movdqa	%xmm0, 608(%rsp)
	movdqa	%xmm0, 592(%rsp)
	movdqa	%xmm0, 576(%rsp)
	movdqa	%xmm0, 560(%rsp)
	movdqa	%xmm0, 544(%rsp)
	movdqa	%xmm0, 528(%rsp)
	movdqa	%xmm0, 512(%rsp)
	movq	$0, 624(%rsp)
	movl	$10, %r13d
	movb	$1, %r14b
.LBB2_1266:
	movq	%rbx, %rdi
	callq	rattle_dealloc@PLT
	movq	624(%rsp), %rax
	leaq	336(%rsp), %rcx
	movq	%rax, 112(%rcx)
	movaps	608(%rsp), %xmm0
	movups	%xmm0, 96(%rcx)
	movaps	592(%rsp), %xmm0
	movups	%xmm0, 80(%rcx)
	movaps	576(%rsp), %xmm0
	movups	%xmm0, 64(%rcx)
	movdqa	512(%rsp), %xmm0
	movdqa	528(%rsp), %xmm1
	movdqa	544(%rsp), %xmm2
	movdqa	560(%rsp), %xmm3
	movdqu	%xmm3, 48(%rcx)
	movdqu	%xmm2, 32(%rcx)
	movdqu	%xmm1, 16(%rcx)
	movdqu	%xmm0, (%rcx)
	movl	%r13d, %eax
	shrl	$8, %eax
	movq	336(%rsp), %r15
	movq	344(%rsp), %rsi
	movq	352(%rsp), %rdx
	movq	%rdx, 48(%rsp)
	movq	360(%rsp), %r8
.LBB2_1267:
	movups	32(%rcx), %xmm0
	movdqu	48(%rcx), %xmm1
	movdqu	64(%rcx), %xmm2
	movdqu	80(%rcx), %xmm3
	movaps	%xmm0, 224(%rsp)
	movdqa	%xmm1, 240(%rsp)
	movdqa	%xmm2, 256(%rsp)
	movdqa	%xmm3, 272(%rsp)
	movdqu	96(%rcx), %xmm0
	movdqa	%xmm0, 288(%rsp)
	movq	112(%rcx), %rcx
	movq	%rcx, 304(%rsp)
.LBB2_1268:
	xorl	%ecx, %ecx
	jmp	.LBB2_504
.LBB2_1269:
	movq	8(%rsp), %r9
	movl	%ebx, %r10d
	movq	%rdx, %r15
	movq	56(%rsp), %r11
	jmp	.LBB2_1351
.LBB2_1270:
	movq	%r15, %rax
	andq	%rcx, %rax
	xorl	%edx, %edx
.LBB2_1271:
	movdqu	(%rsi,%rdx), %xmm0
	movdqu	16(%rsi,%rdx), %xmm1
	movdqu	%xmm0, (%rbp,%rdx)
	movdqu	%xmm1, 16(%rbp,%rdx)
	addq	$32, %rdx
	cmpq	%rdx, %rax
	jne	.LBB2_1271
	cmpq	%rax, %r15
	jne	.LBB2_1346
	movq	%r15, 40(%rsp)
	movq	8(%rsp), %r9
	jmp	.LBB2_1120
.LBB2_1274:
	movq	8(%rsp), %r9
	jmp	.LBB2_1362
.LBB2_1275:
	movq	%rbx, %rax
	andq	%rcx, %rax
	xorl	%edi, %edi
.LBB2_1276:
	movdqu	(%rsi,%rdi), %xmm0
	movdqu	16(%rsi,%rdi), %xmm1
	movdqu	%xmm0, (%rdx,%rdi)
	movdqu	%xmm1, 16(%rdx,%rdi)
	addq	$32, %rdi
	cmpq	%rdi, %rax
	jne	.LBB2_1276
	cmpq	%rax, %rbx
	je	.LBB2_1308
	testb	$28, %bl
	movq	8(%rsp), %r9
	movq	24(%rsp), %r14
	je	.LBB2_1362
.LBB2_1359:
	movq	%rax, %rdi
	addq	$28, %rcx
	movq	%rcx, %rax
	andq	%rbx, %rax
.LBB2_1360:
	movl	(%rsi,%rdi), %ecx
	movl	%ecx, (%rdx,%rdi)
	addq	$4, %rdi
	cmpq	%rdi, %rax
	jne	.LBB2_1360
	cmpq	%rax, %rbx
	je	.LBB2_1430
.LBB2_1362:
	movq	%rbx, %r8
	movq	%rax, %rcx
	andq	$3, %r8
	je	.LBB2_1365
	movq	%rax, %rcx
.LBB2_1364:
	movzbl	(%rsi,%rcx), %edi
	movb	%dil, (%rdx,%rcx)
	incq	%rcx
	decq	%r8
	jne	.LBB2_1364
.LBB2_1365:
	subq	%rbx, %rax
	cmpq	$-4, %rax
	ja	.LBB2_1430
.LBB2_1366:
	movzbl	(%rsi,%rcx), %eax
	movb	%al, (%rdx,%rcx)
	movzbl	1(%rsi,%rcx), %eax
	movb	%al, 1(%rdx,%rcx)
	movzbl	2(%rsi,%rcx), %eax
	movb	%al, 2(%rdx,%rcx)
	movzbl	3(%rsi,%rcx), %eax
	movb	%al, 3(%rdx,%rcx)
	addq	$4, %rcx
	cmpq	%rcx, %rbx
	jne	.LBB2_1366
	jmp	.LBB2_1430
.LBB2_1279:
	movq	8(%rsp), %r9
	jmp	.LBB2_1371
.LBB2_1280:
	movq	%rbx, %rax
	andq	%rcx, %rax
	xorl	%edi, %edi
.LBB2_1281:
	movdqu	(%rsi,%rdi), %xmm0
	movdqu	16(%rsi,%rdi), %xmm1
	movdqu	%xmm0, (%rdx,%rdi)
	movdqu	%xmm1, 16(%rdx,%rdi)
	addq	$32, %rdi
	cmpq	%rdi, %rax
	jne	.LBB2_1281
	cmpq	%rax, %rbx
	je	.LBB2_1304
	testb	$28, %bl
	movq	8(%rsp), %r9
	movq	24(%rsp), %r14
	je	.LBB2_1371
.LBB2_1368:
	movq	%rax, %rdi
	addq	$28, %rcx
	movq	%rcx, %rax
	andq	%rbx, %rax
.LBB2_1369:
	movl	(%rsi,%rdi), %ecx
	movl	%ecx, (%rdx,%rdi)
	addq	$4, %rdi
	cmpq	%rdi, %rax
	jne	.LBB2_1369
	cmpq	%rax, %rbx
	je	.LBB2_1476
.LBB2_1371:
	movq	%rbx, %r8
	movq	%rax, %rcx
	andq	$3, %r8
	je	.LBB2_1374
	movq	%rax, %rcx
.LBB2_1373:
	movzbl	(%rsi,%rcx), %edi
	movb	%dil, (%rdx,%rcx)
	incq	%rcx
	decq	%r8
	jne	.LBB2_1373
.LBB2_1374:
	subq	%rbx, %rax
	cmpq	$-4, %rax
	ja	.LBB2_1476
.LBB2_1375:
	movzbl	(%rsi,%rcx), %eax
	movb	%al, (%rdx,%rcx)
	movzbl	1(%rsi,%rcx), %eax
	movb	%al, 1(%rdx,%rcx)
	movzbl	2(%rsi,%rcx), %eax
	movb	%al, 2(%rdx,%rcx)
	movzbl	3(%rsi,%rcx), %eax
	movb	%al, 3(%rdx,%rcx)
	addq	$4, %rcx
	cmpq	%rcx, %rbx
	jne	.LBB2_1375
	jmp	.LBB2_1476
.LBB2_1284:
	movq	8(%rsp), %r9
	jmp	.LBB2_1380
.LBB2_1285:
	movq	%rbx, %rax
	andq	%rcx, %rax
	xorl	%edi, %edi
.LBB2_1286:
	movdqu	(%rsi,%rdi), %xmm0
	movdqu	16(%rsi,%rdi), %xmm1
	movdqu	%xmm0, (%rdx,%rdi)
	movdqu	%xmm1, 16(%rdx,%rdi)
	addq	$32, %rdi
	cmpq	%rdi, %rax
	jne	.LBB2_1286
	cmpq	%rax, %rbx
	je	.LBB2_1304
	testb	$28, %bl
	movq	8(%rsp), %r9
	movq	24(%rsp), %r14
	je	.LBB2_1380
.LBB2_1377:
	movq	%rax, %rdi
	addq	$28, %rcx
	movq	%rcx, %rax
	andq	%rbx, %rax
.LBB2_1378:
	movl	(%rsi,%rdi), %ecx
	movl	%ecx, (%rdx,%rdi)
	addq	$4, %rdi
	cmpq	%rdi, %rax
	jne	.LBB2_1378
	cmpq	%rax, %rbx
	je	.LBB2_1476
.LBB2_1380:
	movq	%rbx, %r8
	movq	%rax, %rcx
	andq	$3, %r8
	je	.LBB2_1383
	movq	%rax, %rcx
.LBB2_1382:
	movzbl	(%rsi,%rcx), %edi
	movb	%dil, (%rdx,%rcx)
	incq	%rcx
	decq	%r8
	jne	.LBB2_1382
.LBB2_1383:
	subq	%rbx, %rax
	cmpq	$-4, %rax
	ja	.LBB2_1476
.LBB2_1384:
	movzbl	(%rsi,%rcx), %eax
	movb	%al, (%rdx,%rcx)
	movzbl	1(%rsi,%rcx), %eax
	movb	%al, 1(%rdx,%rcx)
	movzbl	2(%rsi,%rcx), %eax
	movb	%al, 2(%rdx,%rcx)
	movzbl	3(%rsi,%rcx), %eax
	movb	%al, 3(%rdx,%rcx)
	addq	$4, %rcx
	cmpq	%rcx, %rbx
	jne	.LBB2_1384
	jmp	.LBB2_1476
.LBB2_1289:
	movq	8(%rsp), %r9
	jmp	.LBB2_1389
.LBB2_1290:
	movq	%rbx, %rax
	andq	%rcx, %rax
	xorl	%edi, %edi
.LBB2_1291:
	movdqu	(%rsi,%rdi), %xmm0
	movdqu	16(%rsi,%rdi), %xmm1
	movdqu	%xmm0, (%rdx,%rdi)
	movdqu	%xmm1, 16(%rdx,%rdi)
	addq	$32, %rdi
	cmpq	%rdi, %rax
	jne	.LBB2_1291
	cmpq	%rax, %rbx
	je	.LBB2_1304
	testb	$28, %bl
	movq	8(%rsp), %r9
	movq	24(%rsp), %r14
	je	.LBB2_1389
.LBB2_1386:
	movq	%rax, %rdi
	addq	$28, %rcx
	movq	%rcx, %rax
	andq	%rbx, %rax
.LBB2_1387:
	movl	(%rsi,%rdi), %ecx
	movl	%ecx, (%rdx,%rdi)
	addq	$4, %rdi
	cmpq	%rdi, %rax
	jne	.LBB2_1387
	cmpq	%rax, %rbx
	je	.LBB2_1476
.LBB2_1389:
	movq	%rbx, %r8
	movq	%rax, %rcx
	andq	$3, %r8
	je	.LBB2_1392
	movq	%rax, %rcx
.LBB2_1391:
	movzbl	(%rsi,%rcx), %edi
	movb	%dil, (%rdx,%rcx)
	incq	%rcx
	decq	%r8
	jne	.LBB2_1391
.LBB2_1392:
	subq	%rbx, %rax
	cmpq	$-4, %rax
	ja	.LBB2_1476
.LBB2_1393:
	movzbl	(%rsi,%rcx), %eax
	movb	%al, (%rdx,%rcx)
	movzbl	1(%rsi,%rcx), %eax
	movb	%al, 1(%rdx,%rcx)
	movzbl	2(%rsi,%rcx), %eax
	movb	%al, 2(%rdx,%rcx)
	movzbl	3(%rsi,%rcx), %eax
	movb	%al, 3(%rdx,%rcx)
	addq	$4, %rcx
	cmpq	%rcx, %rbx
	jne	.LBB2_1393
	jmp	.LBB2_1476
.LBB2_1294:
	movq	8(%rsp), %r9
	jmp	.LBB2_1398
.LBB2_1295:
	movq	8(%rsp), %r9
	jmp	.LBB2_1407
.LBB2_1296:
	movq	8(%rsp), %r9
	jmp	.LBB2_1416
.LBB2_1297:
	movq	%rbx, %rax
	andq	%rcx, %rax
	xorl	%edi, %edi
.LBB2_1298:
	movdqu	(%rsi,%rdi), %xmm0
	movdqu	16(%rsi,%rdi), %xmm1
	movdqu	%xmm0, (%rdx,%rdi)
	movdqu	%xmm1, 16(%rdx,%rdi)
	addq	$32, %rdi
	cmpq	%rdi, %rax
	jne	.LBB2_1298
	cmpq	%rax, %rbx
	je	.LBB2_1304
	testb	$28, %bl
	movq	8(%rsp), %r9
	movq	24(%rsp), %r14
	je	.LBB2_1398
.LBB2_1395:
	movq	%rax, %rdi
	addq	$28, %rcx
	movq	%rcx, %rax
	andq	%rbx, %rax
.LBB2_1396:
	movl	(%rsi,%rdi), %ecx
	movl	%ecx, (%rdx,%rdi)
	addq	$4, %rdi
	cmpq	%rdi, %rax
	jne	.LBB2_1396
	cmpq	%rax, %rbx
	je	.LBB2_1476
.LBB2_1398:
	movq	%rbx, %r8
	movq	%rax, %rcx
	andq	$3, %r8
	je	.LBB2_1401
	movq	%rax, %rcx
.LBB2_1400:
	movzbl	(%rsi,%rcx), %edi
	movb	%dil, (%rdx,%rcx)
	incq	%rcx
	decq	%r8
	jne	.LBB2_1400
.LBB2_1401:
	subq	%rbx, %rax
	cmpq	$-4, %rax
	ja	.LBB2_1476
.LBB2_1402:
	movzbl	(%rsi,%rcx), %eax
	movb	%al, (%rdx,%rcx)
	movzbl	1(%rsi,%rcx), %eax
	movb	%al, 1(%rdx,%rcx)
	movzbl	2(%rsi,%rcx), %eax
	movb	%al, 2(%rdx,%rcx)
	movzbl	3(%rsi,%rcx), %eax
	movb	%al, 3(%rdx,%rcx)
	addq	$4, %rcx
	cmpq	%rcx, %rbx
	jne	.LBB2_1402
	jmp	.LBB2_1476
.LBB2_1301:
	movq	%rbx, %rax
	andq	%rcx, %rax
	xorl	%edi, %edi
.LBB2_1302:
	movdqu	(%rsi,%rdi), %xmm0
	movdqu	16(%rsi,%rdi), %xmm1
	movdqu	%xmm0, (%rdx,%rdi)
	movdqu	%xmm1, 16(%rdx,%rdi)
	addq	$32, %rdi
	cmpq	%rdi, %rax
	jne	.LBB2_1302
	cmpq	%rax, %rbx
	je	.LBB2_1304
	testb	$28, %bl
	movq	8(%rsp), %r9
	movq	24(%rsp), %r14
	je	.LBB2_1407
.LBB2_1404:
	movq	%rax, %rdi
	addq	$28, %rcx
	movq	%rcx, %rax
	andq	%rbx, %rax
.LBB2_1405:
	movl	(%rsi,%rdi), %ecx
	movl	%ecx, (%rdx,%rdi)
	addq	$4, %rdi
	cmpq	%rdi, %rax
	jne	.LBB2_1405
	cmpq	%rax, %rbx
	je	.LBB2_1476
.LBB2_1407:
	movq	%rbx, %r8
	movq	%rax, %rcx
	andq	$3, %r8
	je	.LBB2_1410
	movq	%rax, %rcx
.LBB2_1409:
	movzbl	(%rsi,%rcx), %edi
	movb	%dil, (%rdx,%rcx)
	incq	%rcx
	decq	%r8
	jne	.LBB2_1409
.LBB2_1410:
	subq	%rbx, %rax
	cmpq	$-4, %rax
	ja	.LBB2_1476
.LBB2_1411:
	movzbl	(%rsi,%rcx), %eax
	movb	%al, (%rdx,%rcx)
	movzbl	1(%rsi,%rcx), %eax
	movb	%al, 1(%rdx,%rcx)
	movzbl	2(%rsi,%rcx), %eax
	movb	%al, 2(%rdx,%rcx)
	movzbl	3(%rsi,%rcx), %eax
	movb	%al, 3(%rdx,%rcx)
	addq	$4, %rcx
	cmpq	%rcx, %rbx
	jne	.LBB2_1411
	jmp	.LBB2_1476
.LBB2_1305:
	movq	%rbx, %rax
	andq	%rcx, %rax
	xorl	%edi, %edi
.LBB2_1306:
	movdqu	(%rsi,%rdi), %xmm0
	movdqu	16(%rsi,%rdi), %xmm1
	movdqu	%xmm0, (%rdx,%rdi)
	movdqu	%xmm1, 16(%rdx,%rdi)
	addq	$32, %rdi
	cmpq	%rdi, %rax
	jne	.LBB2_1306
	cmpq	%rax, %rbx
	je	.LBB2_1308
	testb	$28, %bl
	movq	8(%rsp), %r9
	movq	24(%rsp), %r14
	je	.LBB2_1416
.LBB2_1413:
	movq	%rax, %rdi
	addq	$28, %rcx
	movq	%rcx, %rax
	andq	%rbx, %rax
.LBB2_1414:
	movl	(%rsi,%rdi), %ecx
	movl	%ecx, (%rdx,%rdi)
	addq	$4, %rdi
	cmpq	%rdi, %rax
	jne	.LBB2_1414
	cmpq	%rax, %rbx
	je	.LBB2_1430
.LBB2_1416:
	movq	%rbx, %r8
	movq	%rax, %rcx
	andq	$3, %r8
	je	.LBB2_1419
	movq	%rax, %rcx
.LBB2_1418:
	movzbl	(%rsi,%rcx), %edi
	movb	%dil, (%rdx,%rcx)
	incq	%rcx
	decq	%r8
	jne	.LBB2_1418
.LBB2_1419:
	subq	%rbx, %rax
	cmpq	$-4, %rax
	ja	.LBB2_1430
.LBB2_1420:
	movzbl	(%rsi,%rcx), %eax
	movb	%al, (%rdx,%rcx)
	movzbl	1(%rsi,%rcx), %eax
	movb	%al, 1(%rdx,%rcx)
	movzbl	2(%rsi,%rcx), %eax
	movb	%al, 2(%rdx,%rcx)
	movzbl	3(%rsi,%rcx), %eax
	movb	%al, 3(%rdx,%rcx)
	addq	$4, %rcx
	cmpq	%rcx, %rbx
	jne	.LBB2_1420
	jmp	.LBB2_1430
.LBB2_1309:
	movq	8(%rsp), %r9
	jmp	.LBB2_1425
.LBB2_1310:
	movq	8(%rsp), %r9
	jmp	.LBB2_1435
.LBB2_1311:
	movq	%rbx, %rax
	andq	%rcx, %rax
	xorl	%edi, %edi
.LBB2_1312:
	movdqu	(%rsi,%rdi), %xmm0
	movdqu	16(%rsi,%rdi), %xmm1
	movdqu	%xmm0, (%rdx,%rdi)
	movdqu	%xmm1, 16(%rdx,%rdi)
	addq	$32, %rdi
	cmpq	%rdi, %rax
	jne	.LBB2_1312
	cmpq	%rax, %rbx
	jne	.LBB2_1421
.LBB2_1308:
	movq	%rdx, (%rsp)
	movq	%rbx, %rdx
	jmp	.LBB2_426
.LBB2_1315:
	movq	%rbx, %rax
	andq	%rcx, %rax
	xorl	%edi, %edi
.LBB2_1316:
	movdqu	(%rsi,%rdi), %xmm0
	movdqu	16(%rsi,%rdi), %xmm1
	movdqu	%xmm0, (%rdx,%rdi)
	movdqu	%xmm1, 16(%rdx,%rdi)
	addq	$32, %rdi
	cmpq	%rdi, %rax
	jne	.LBB2_1316
	cmpq	%rax, %rbx
	je	.LBB2_1304
	testb	$28, %bl
	movq	8(%rsp), %r9
	movq	24(%rsp), %r14
	je	.LBB2_1435
.LBB2_1432:
	movq	%rax, %rdi
	addq	$28, %rcx
	movq	%rcx, %rax
	andq	%rbx, %rax
.LBB2_1433:
	movl	(%rsi,%rdi), %ecx
	movl	%ecx, (%rdx,%rdi)
	addq	$4, %rdi
	cmpq	%rdi, %rax
	jne	.LBB2_1433
	cmpq	%rax, %rbx
	je	.LBB2_1476
.LBB2_1435:
	movq	%rbx, %r8
	movq	%rax, %rcx
	andq	$3, %r8
	je	.LBB2_1438
	movq	%rax, %rcx
.LBB2_1437:
	movzbl	(%rsi,%rcx), %edi
	movb	%dil, (%rdx,%rcx)
	incq	%rcx
	decq	%r8
	jne	.LBB2_1437
.LBB2_1438:
	subq	%rbx, %rax
	cmpq	$-4, %rax
	ja	.LBB2_1476
.LBB2_1439:
	movzbl	(%rsi,%rcx), %eax
	movb	%al, (%rdx,%rcx)
	movzbl	1(%rsi,%rcx), %eax
	movb	%al, 1(%rdx,%rcx)
	movzbl	2(%rsi,%rcx), %eax
	movb	%al, 2(%rdx,%rcx)
	movzbl	3(%rsi,%rcx), %eax
	movb	%al, 3(%rdx,%rcx)
	addq	$4, %rcx
	cmpq	%rcx, %rbx
	jne	.LBB2_1439
	jmp	.LBB2_1476
.LBB2_1319:
	movq	8(%rsp), %r9
	jmp	.LBB2_1444
.LBB2_1320:
	movq	%rbx, %rax
	andq	%rcx, %rax
	xorl	%edi, %edi
.LBB2_1321:
	movdqu	(%rsi,%rdi), %xmm0
	movdqu	16(%rsi,%rdi), %xmm1
	movdqu	%xmm0, (%rdx,%rdi)
	movdqu	%xmm1, 16(%rdx,%rdi)
	addq	$32, %rdi
	cmpq	%rdi, %rax
	jne	.LBB2_1321
	cmpq	%rax, %rbx
	je	.LBB2_1304
	testb	$28, %bl
	movq	8(%rsp), %r9
	movq	24(%rsp), %r14
	je	.LBB2_1444
.LBB2_1441:
	movq	%rax, %rdi
	addq	$28, %rcx
	movq	%rcx, %rax
	andq	%rbx, %rax
.LBB2_1442:
	movl	(%rsi,%rdi), %ecx
	movl	%ecx, (%rdx,%rdi)
	addq	$4, %rdi
	cmpq	%rdi, %rax
	jne	.LBB2_1442
	cmpq	%rax, %rbx
	je	.LBB2_1476
.LBB2_1444:
	movq	%rbx, %r8
	movq	%rax, %rcx
	andq	$3, %r8
	je	.LBB2_1447
	movq	%rax, %rcx
.LBB2_1446:
	movzbl	(%rsi,%rcx), %edi
	movb	%dil, (%rdx,%rcx)
	incq	%rcx
	decq	%r8
	jne	.LBB2_1446
.LBB2_1447:
	subq	%rbx, %rax
	cmpq	$-4, %rax
	ja	.LBB2_1476
.LBB2_1448:
	movzbl	(%rsi,%rcx), %eax
	movb	%al, (%rdx,%rcx)
	movzbl	1(%rsi,%rcx), %eax
	movb	%al, 1(%rdx,%rcx)
	movzbl	2(%rsi,%rcx), %eax
	movb	%al, 2(%rdx,%rcx)
	movzbl	3(%rsi,%rcx), %eax
	movb	%al, 3(%rdx,%rcx)
	addq	$4, %rcx
	cmpq	%rcx, %rbx
	jne	.LBB2_1448
	jmp	.LBB2_1476
.LBB2_1324:
	movq	8(%rsp), %r9
	jmp	.LBB2_1453
.LBB2_1325:
	movq	8(%rsp), %r9
	jmp	.LBB2_1462
.LBB2_1326:
	movq	%rbx, %rax
	andq	%rcx, %rax
	xorl	%edi, %edi
.LBB2_1327:
	movdqu	(%rsi,%rdi), %xmm0
	movdqu	16(%rsi,%rdi), %xmm1
	movdqu	%xmm0, (%rdx,%rdi)
	movdqu	%xmm1, 16(%rdx,%rdi)
	addq	$32, %rdi
	cmpq	%rdi, %rax
	jne	.LBB2_1327
	cmpq	%rax, %rbx
	je	.LBB2_1304
	testb	$28, %bl
	movq	8(%rsp), %r9
	movq	24(%rsp), %r14
	je	.LBB2_1453
.LBB2_1450:
	movq	%rax, %rdi
	addq	$28, %rcx
	movq	%rcx, %rax
	andq	%rbx, %rax
.LBB2_1451:
	movl	(%rsi,%rdi), %ecx
	movl	%ecx, (%rdx,%rdi)
	addq	$4, %rdi
	cmpq	%rdi, %rax
	jne	.LBB2_1451
	cmpq	%rax, %rbx
	je	.LBB2_1476
.LBB2_1453:
	movq	%rbx, %r8
	movq	%rax, %rcx
	andq	$3, %r8
	je	.LBB2_1456
	movq	%rax, %rcx
.LBB2_1455:
	movzbl	(%rsi,%rcx), %edi
	movb	%dil, (%rdx,%rcx)
	incq	%rcx
	decq	%r8
	jne	.LBB2_1455
.LBB2_1456:
	subq	%rbx, %rax
	cmpq	$-4, %rax
	ja	.LBB2_1476
.LBB2_1457:
	movzbl	(%rsi,%rcx), %eax
	movb	%al, (%rdx,%rcx)
	movzbl	1(%rsi,%rcx), %eax
	movb	%al, 1(%rdx,%rcx)
	movzbl	2(%rsi,%rcx), %eax
	movb	%al, 2(%rdx,%rcx)
	movzbl	3(%rsi,%rcx), %eax
	movb	%al, 3(%rdx,%rcx)
	addq	$4, %rcx
	cmpq	%rcx, %rbx
	jne	.LBB2_1457
	jmp	.LBB2_1476
.LBB2_1330:
	movq	%rbx, %rax
	andq	%rcx, %rax
	xorl	%edi, %edi
.LBB2_1331:
	movdqu	(%rsi,%rdi), %xmm0
	movdqu	16(%rsi,%rdi), %xmm1
	movdqu	%xmm0, (%rdx,%rdi)
	movdqu	%xmm1, 16(%rdx,%rdi)
	addq	$32, %rdi
	cmpq	%rdi, %rax
	jne	.LBB2_1331
	cmpq	%rax, %rbx
	je	.LBB2_1304
	testb	$28, %bl
	movq	8(%rsp), %r9
	movq	24(%rsp), %r14
	je	.LBB2_1462
.LBB2_1459:
	movq	%rax, %rdi
	addq	$28, %rcx
	movq	%rcx, %rax
	andq	%rbx, %rax
.LBB2_1460:
	movl	(%rsi,%rdi), %ecx
	movl	%ecx, (%rdx,%rdi)
	addq	$4, %rdi
	cmpq	%rdi, %rax
	jne	.LBB2_1460
	cmpq	%rax, %rbx
	je	.LBB2_1476
.LBB2_1462:
	movq	%rbx, %r8
	movq	%rax, %rcx
	andq	$3, %r8
	je	.LBB2_1465
	movq	%rax, %rcx
.LBB2_1464:
	movzbl	(%rsi,%rcx), %edi
	movb	%dil, (%rdx,%rcx)
	incq	%rcx
	decq	%r8
	jne	.LBB2_1464
.LBB2_1465:
	subq	%rbx, %rax
	cmpq	$-4, %rax
	ja	.LBB2_1476
.LBB2_1466:
	movzbl	(%rsi,%rcx), %eax
	movb	%al, (%rdx,%rcx)
	movzbl	1(%rsi,%rcx), %eax
	movb	%al, 1(%rdx,%rcx)
	movzbl	2(%rsi,%rcx), %eax
	movb	%al, 2(%rdx,%rcx)
	movzbl	3(%rsi,%rcx), %eax
	movb	%al, 3(%rdx,%rcx)
	addq	$4, %rcx
	cmpq	%rcx, %rbx
	jne	.LBB2_1466
	jmp	.LBB2_1476
.LBB2_1334:
	movq	8(%rsp), %r9
	jmp	.LBB2_1471
.LBB2_1335:
	movq	%rbx, %rax
	andq	%rcx, %rax
	xorl	%edi, %edi
.LBB2_1336:
	movdqu	(%rsi,%rdi), %xmm0
	movdqu	16(%rsi,%rdi), %xmm1
	movdqu	%xmm0, (%rdx,%rdi)
	movdqu	%xmm1, 16(%rdx,%rdi)
	addq	$32, %rdi
	cmpq	%rdi, %rax
	jne	.LBB2_1336
	cmpq	%rax, %rbx
	jne	.LBB2_1467
.LBB2_1304:
	movq	%rdx, (%rsp)
	movq	%rbx, %r13
	jmp	.LBB2_414
.LBB2_1339:
	movq	8(%rsp), %r9
	movl	%ebx, %r10d
	movq	%rdx, %r15
	movq	56(%rsp), %r11
	jmp	.LBB2_1482
.LBB2_1340:
	movq	%r15, %rax
	andq	%rcx, %rax
	xorl	%edx, %edx
.LBB2_1341:
	movdqu	(%rsi,%rdx), %xmm0
	movdqu	16(%rsi,%rdx), %xmm1
	movdqu	%xmm0, (%rbp,%rdx)
	movdqu	%xmm1, 16(%rbp,%rdx)
	addq	$32, %rdx
	cmpq	%rdx, %rax
	jne	.LBB2_1341
	cmpq	%rax, %r15
	jne	.LBB2_1477
	movq	%r15, 40(%rsp)
	movq	8(%rsp), %r9
	jmp	.LBB2_1168
.LBB2_1344:
	testq	%rbp, %rbp
	movq	8(%rsp), %rax
	leaq	8(%rax), %rbp
	je	.LBB2_1090
	movq	%r15, %rdi
	callq	rattle_dealloc@PLT
	jmp	.LBB2_1090
.LBB2_1346:
	testb	$28, %r15b
	movq	8(%rsp), %r9
	movq	48(%rsp), %r13
	movq	56(%rsp), %r11
	je	.LBB2_1351
.LBB2_1347:
	movq	%rax, %rdx
	addq	$28, %rcx
	movq	%rcx, %rax
	andq	%r15, %rax
.LBB2_1348:
	movl	(%rsi,%rdx), %ecx
	movl	%ecx, (%rbp,%rdx)
	addq	$4, %rdx
	cmpq	%rdx, %rax
	jne	.LBB2_1348
	cmpq	%rax, %r15
	je	.LBB2_1355
.LBB2_1351:
	movq	%r15, %rdx
	movq	%rax, %rcx
	andq	$3, %rdx
	je	.LBB2_1354
	movq	%rax, %rcx
.LBB2_1353:
	movzbl	(%rsi,%rcx), %edi
	movb	%dil, (%rbp,%rcx)
	incq	%rcx
	decq	%rdx
	jne	.LBB2_1353
.LBB2_1354:
	subq	%r15, %rax
	cmpq	$-4, %rax
	ja	.LBB2_1355
.LBB2_1356:
	movzbl	(%rsi,%rcx), %eax
	movb	%al, (%rbp,%rcx)
	movzbl	1(%rsi,%rcx), %eax
	movb	%al, 1(%rbp,%rcx)
	movzbl	2(%rsi,%rcx), %eax
	movb	%al, 2(%rbp,%rcx)
	movzbl	3(%rsi,%rcx), %eax
	movb	%al, 3(%rbp,%rcx)
	addq	$4, %rcx
	cmpq	%rcx, %r15
	jne	.LBB2_1356
.LBB2_1355:
	movq	%r15, 40(%rsp)
	testq	%r13, %r13
	jne	.LBB2_1122
	jmp	.LBB2_1491
.LBB2_1421:
	testb	$28, %bl
	movq	8(%rsp), %r9
	movq	24(%rsp), %r14
	je	.LBB2_1425
.LBB2_1422:
	movq	%rax, %rdi
	addq	$28, %rcx
	movq	%rcx, %rax
	andq	%rbx, %rax
.LBB2_1423:
	movl	(%rsi,%rdi), %ecx
	movl	%ecx, (%rdx,%rdi)
	addq	$4, %rdi
	cmpq	%rdi, %rax
	jne	.LBB2_1423
	cmpq	%rax, %rbx
	je	.LBB2_1430
.LBB2_1425:
	movq	%rbx, %r8
	movq	%rax, %rcx
	andq	$3, %r8
	je	.LBB2_1428
	movq	%rax, %rcx
.LBB2_1427:
	movzbl	(%rsi,%rcx), %edi
	movb	%dil, (%rdx,%rcx)
	incq	%rcx
	decq	%r8
	jne	.LBB2_1427
.LBB2_1428:
	subq	%rbx, %rax
	cmpq	$-4, %rax
	ja	.LBB2_1430
.LBB2_1429:
	movzbl	(%rsi,%rcx), %eax
	movb	%al, (%rdx,%rcx)
	movzbl	1(%rsi,%rcx), %eax
	movb	%al, 1(%rdx,%rcx)
	movzbl	2(%rsi,%rcx), %eax
	movb	%al, 2(%rdx,%rcx)
	movzbl	3(%rsi,%rcx), %eax
	movb	%al, 3(%rdx,%rcx)
	addq	$4, %rcx
	cmpq	%rcx, %rbx
	jne	.LBB2_1429
.LBB2_1430:
	movq	%rdx, (%rsp)
	movq	%rbx, %rdx
	jmp	.LBB2_427
.LBB2_1467:
	testb	$28, %bl
	movq	8(%rsp), %r9
	movq	24(%rsp), %r14
	je	.LBB2_1471
.LBB2_1468:
	movq	%rax, %rdi
	addq	$28, %rcx
	movq	%rcx, %rax
	andq	%rbx, %rax
.LBB2_1469:
	movl	(%rsi,%rdi), %ecx
	movl	%ecx, (%rdx,%rdi)
	addq	$4, %rdi
	cmpq	%rdi, %rax
	jne	.LBB2_1469
	cmpq	%rax, %rbx
	je	.LBB2_1476
.LBB2_1471:
	movq	%rbx, %r8
	movq	%rax, %rcx
	andq	$3, %r8
	je	.LBB2_1474
	movq	%rax, %rcx
.LBB2_1473:
	movzbl	(%rsi,%rcx), %edi
	movb	%dil, (%rdx,%rcx)
	incq	%rcx
	decq	%r8
	jne	.LBB2_1473
.LBB2_1474:
	subq	%rbx, %rax
	cmpq	$-4, %rax
	ja	.LBB2_1476
.LBB2_1475:
	movzbl	(%rsi,%rcx), %eax
	movb	%al, (%rdx,%rcx)
	movzbl	1(%rsi,%rcx), %eax
	movb	%al, 1(%rdx,%rcx)
	movzbl	2(%rsi,%rcx), %eax
	movb	%al, 2(%rdx,%rcx)
	movzbl	3(%rsi,%rcx), %eax
	movb	%al, 3(%rdx,%rcx)
	addq	$4, %rcx
	cmpq	%rcx, %rbx
	jne	.LBB2_1475
.LBB2_1476:
	movq	%rdx, (%rsp)
	movq	%rbx, %r13
	jmp	.LBB2_415
.LBB2_1477:
	testb	$28, %r15b
	movq	8(%rsp), %r9
	movq	48(%rsp), %r13
	movq	56(%rsp), %r11
	je	.LBB2_1482
.LBB2_1478:
	movq	%rax, %rdx
	addq	$28, %rcx
	movq	%rcx, %rax
	andq	%r15, %rax
.LBB2_1479:
	movl	(%rsi,%rdx), %ecx
	movl	%ecx, (%rbp,%rdx)
	addq	$4, %rdx
	cmpq	%rdx, %rax
	jne	.LBB2_1479
	cmpq	%rax, %r15
	je	.LBB2_1486
.LBB2_1482:
	movq	%r15, %rdx
	movq	%rax, %rcx
	andq	$3, %rdx
	je	.LBB2_1485
	movq	%rax, %rcx
.LBB2_1484:
	movzbl	(%rsi,%rcx), %edi
	movb	%dil, (%rbp,%rcx)
	incq	%rcx
	decq	%rdx
	jne	.LBB2_1484
.LBB2_1485:
	subq	%r15, %rax
	cmpq	$-4, %rax
	ja	.LBB2_1486
.LBB2_1487:
	movzbl	(%rsi,%rcx), %eax
	movb	%al, (%rbp,%rcx)
	movzbl	1(%rsi,%rcx), %eax
	movb	%al, 1(%rbp,%rcx)
	movzbl	2(%rsi,%rcx), %eax
	movb	%al, 2(%rbp,%rcx)
	movzbl	3(%rsi,%rcx), %eax
	movb	%al, 3(%rbp,%rcx)
	addq	$4, %rcx
	cmpq	%rcx, %r15
	jne	.LBB2_1487
.LBB2_1486:
	movq	%r15, 40(%rsp)
	testq	%r13, %r13
	jne	.LBB2_1170
	jmp	.LBB2_1491
.LBB2_1489:
	movzbl	(%r14,%rax), %ecx
	leal	-97(%rcx), %edx
	leal	-32(%rcx), %esi
	cmpb	$26, %dl
	movzbl	%sil, %edx
	cmovael	%ecx, %edx
	movb	%dl, (%r14,%rax)
	incq	%rax
.LBB2_1490:
	cmpq	%rax, %r13
	jne	.LBB2_1489
.LBB2_1491:
	movb	%r10b, 64(%rsp)
	movb	$1, 36(%rsp)
	movq	$0, 48(%rsp)
	xorl	%r8d, %r8d
	movq	%r14, (%rsp)
	movq	%r13, %rax
	movq	24(%rsp), %r14
	movq	40(%rsp), %rbx
	movq	%r15, %rcx
	jmp	.LBB2_1261
.LBB2_1492:
	cmpq	%rax, %r13
	je	.LBB2_1491
.LBB2_1493:
	movzbl	(%r14,%rax), %ecx
	leal	-97(%rcx), %edx
	leal	-32(%rcx), %esi
	cmpb	$26, %dl
	movzbl	%sil, %edx
	cmovael	%ecx, %edx
	movb	%dl, (%r14,%rax)
	incq	%rax
	jmp	.LBB2_1492
.LBB2_1494:
	movq	640(%rsp), %rdx
	movq	%rdx, %rax
	andq	$-65536, %rax
	movq	(%rsp), %r8
	movq	64(%rsp), %r9
	movq	456(%rsp), %r10
	movq	472(%rsp), %r11
	movq	464(%rsp), %r12
	movq	504(%rsp), %rsi
	movq	648(%rsp), %rdi
	jmp	.LBB2_1519
.LBB2_1495:
	movq	%rbx, %r8
.LBB2_1496:
	movq	%r8, (%rsi)
	cmpb	$0, 32(%rsi)
	jne	.LBB2_1499
	cmpb	$1, 16(%rsi)
	jne	.LBB2_1501
	cmpq	%rbx, 24(%rsi)
	ja	.LBB2_1501
.LBB2_1499:
	movq	$0, (%rsi)
	movb	$1, 32(%rsi)
	cmpq	%rax, %rcx
	je	.LBB2_1501
	addq	96(%rsi), %rbx
	movq	$-1, %rax
	cmovaeq	%rbx, %rax
	movq	%rax, 96(%rsi)
	movq	%rcx, 64(%rsi)
	movq	%rcx, %rax
.LBB2_1501:
	testq	%rax, %rax
	je	.LBB2_1534
	movq	%rcx, %r11
	subq	%rax, %r11
	je	.LBB2_1532
	cmpq	$4, %r11
	setb	%dil
	leaq	31(%rax), %r8
	cmpq	$32, %r8
	setb	%r8b
	orb	%dil, %r8b
	je	.LBB2_1520
	xorl	%edi, %edi
	jmp	.LBB2_1529
.LBB2_1505:
	movq	632(%rsp), %rcx
	movw	$256, (%rcx)
	jmp	.LBB2_1535
.LBB2_1506:
	xorl	%eax, %eax
	movq	216(%rsp), %r13
	movq	40(%rsp), %rcx
	cmpq	$0, (%r13)
	je	.LBB2_1509
.LBB2_1508:
	movq	$0, (%r13)
.LBB2_1509:
	testb	%al, %al
	je	.LBB2_1511
	cmpq	$0, 48(%rsp)
	jne	.LBB2_1517
	jmp	.LBB2_1518
.LBB2_1511:
	testq	%rcx, %rcx
	movq	48(%rsp), %r12
	je	.LBB2_1516
	leaq	16(%r14), %rbx
	jmp	.LBB2_1514
	.p2align	4
.LBB2_1513:
	addq	$24, %rbx
	decq	%rcx
	je	.LBB2_1516
.LBB2_1514:
	cmpq	$0, (%rbx)
	je	.LBB2_1513
	movq	-16(%rbx), %rdi
	movq	%rcx, %r15
	callq	rattle_dealloc@PLT
	movq	%r15, %rcx
	jmp	.LBB2_1513
.LBB2_1516:
	testq	%r12, %r12
	je	.LBB2_1518
.LBB2_1517:
	movq	%r14, %rdi
	callq	rattle_dealloc@PLT
.LBB2_1518:
	movaps	656(%rsp), %xmm0
	movaps	672(%rsp), %xmm1
	movaps	688(%rsp), %xmm2
	movaps	%xmm2, 1248(%rsp)
	movaps	%xmm1, 1232(%rsp)
	movaps	%xmm0, 1216(%rsp)
	movq	784(%rsp), %rax
	leaq	1264(%rsp), %rcx
	movq	%rax, 32(%rcx)
	movaps	752(%rsp), %xmm0
	movaps	768(%rsp), %xmm1
	movups	%xmm1, 16(%rcx)
	movups	%xmm0, (%rcx)
	movl	$4, %r12d
	xorl	%r15d, %r15d
	xorl	%r11d, %r11d
	xorl	%r10d, %r10d
	xorl	%esi, %esi
	xorl	%r9d, %r9d
	xorl	%ebx, %ebx
	xorl	%edi, %edi
	xorl	%r13d, %r13d
	xorl	%r14d, %r14d
	xorl	%r8d, %r8d
	xorl	%eax, %eax
	xorl	%edx, %edx
.LBB2_1519:
	movq	1296(%rsp), %rcx
	movq	%rcx, 1008(%rsp)
	movaps	1280(%rsp), %xmm0
	movaps	%xmm0, 992(%rsp)
	movaps	1216(%rsp), %xmm0
	movaps	1232(%rsp), %xmm1
	movaps	1248(%rsp), %xmm2
	movaps	1264(%rsp), %xmm3
	movaps	%xmm3, 976(%rsp)
	movaps	%xmm2, 960(%rsp)
	movaps	%xmm1, 944(%rsp)
	movaps	%xmm0, 928(%rsp)
	movq	%rdx, %rcx
	jmp	.LBB2_1543
.LBB2_1507:
	xorl	%eax, %eax
	movq	216(%rsp), %r13
	movq	56(%rsp), %r14
	movq	40(%rsp), %rcx
	cmpq	$0, (%r13)
	jne	.LBB2_1508
	jmp	.LBB2_1509
.LBB2_1520:
	cmpq	$32, %r11
	jae	.LBB2_1522
	xorl	%edi, %edi
	jmp	.LBB2_1526
.LBB2_1522:
	movq	%r11, %rdi
	andq	$-32, %rdi
	leaq	16(%rdx), %r8
	movq	%rdi, %r9
	.p2align	4
.LBB2_1523:
	movups	-16(%r8,%rax), %xmm0
	movdqu	(%r8,%rax), %xmm1
	movups	%xmm0, -16(%r8)
	movdqu	%xmm1, (%r8)
	addq	$32, %r8
	addq	$-32, %r9
	jne	.LBB2_1523
	cmpq	%rdi, %r11
	je	.LBB2_1531
	testb	$28, %r11b
	je	.LBB2_1529
.LBB2_1526:
	movq	%rdi, %r8
	movq	%r11, %rdi
	andq	$-4, %rdi
	leaq	(%rdx,%r8), %r9
	subq	%rdi, %r8
	.p2align	4
.LBB2_1527:
	movl	(%r9,%rax), %r10d
	movl	%r10d, (%r9)
	addq	$4, %r9
	addq	$4, %r8
	jne	.LBB2_1527
	cmpq	%rdi, %r11
	je	.LBB2_1531
.LBB2_1529:
	subq	%rdi, %rcx
	addq	%rdi, %rdx
	.p2align	4
.LBB2_1530:
	movzbl	(%rdx,%rax), %edi
	movb	%dil, (%rdx)
	decq	%rcx
	incq	%rdx
	cmpq	%rcx, %rax
	jne	.LBB2_1530
.LBB2_1531:
	movq	48(%rsi), %rcx
.LBB2_1532:
	cmpq	%r11, %rcx
	jbe	.LBB2_1534
	movq	%r11, 48(%rsi)
.LBB2_1534:
	movq	$0, 64(%rsi)
	movq	632(%rsp), %rcx
	movw	$0, (%rcx)
.LBB2_1535:
	pxor	%xmm0, %xmm0
	movdqu	%xmm0, 8(%rcx)
	movdqu	%xmm0, 24(%rcx)
	movdqu	%xmm0, 40(%rcx)
	movaps	1344(%rsp), %xmm0
	movdqa	1360(%rsp), %xmm1
	movdqa	1376(%rsp), %xmm2
	movdqa	1392(%rsp), %xmm3
	movups	%xmm0, 56(%rcx)
	movdqu	%xmm1, 72(%rcx)
	movdqu	%xmm2, 88(%rcx)
	movdqu	%xmm3, 104(%rcx)
	movdqa	1408(%rsp), %xmm0
	movdqu	%xmm0, 120(%rcx)
	movq	1424(%rsp), %rax
	movq	%rax, 136(%rcx)
	jmp	.LBB2_1544
.LBB2_1536:
	cmpq	$0, 96(%rsp)
	je	.LBB2_1538
	movq	80(%rsp), %rdi
	callq	rattle_dealloc@PLT
.LBB2_1538:
	cmpb	$6, %r13b
	movq	(%rsp), %rdi
	jne	.LBB2_1541
	cmpq	$0, 56(%rsp)
	je	.LBB2_1541
	callq	rattle_dealloc@PLT
.LBB2_1541:
	pxor	%xmm0, %xmm0
	movdqa	%xmm0, 288(%rsp)
	movdqa	%xmm0, 272(%rsp)
	movdqa	%xmm0, 256(%rsp)
	movdqa	%xmm0, 240(%rsp)
	movdqa	%xmm0, 224(%rsp)
	movq	$0, 304(%rsp)
	movq	304(%rsp), %rax
	movq	%rax, 1200(%rsp)
	movaps	288(%rsp), %xmm0
	movaps	%xmm0, 1184(%rsp)
	movaps	224(%rsp), %xmm1
	movaps	240(%rsp), %xmm2
	movaps	256(%rsp), %xmm3
	movdqa	272(%rsp), %xmm4
	movdqa	%xmm4, 1168(%rsp)
	movaps	%xmm1, 752(%rsp)
	movaps	%xmm2, 768(%rsp)
	movaps	%xmm3, 784(%rsp)
	movdqa	%xmm4, 800(%rsp)
	movaps	%xmm0, 816(%rsp)
	movq	%rax, 832(%rsp)
	movq	832(%rsp), %rax
	movq	%rax, 1104(%rsp)
	movaps	816(%rsp), %xmm0
	movaps	%xmm0, 1088(%rsp)
	movdqa	752(%rsp), %xmm0
	movdqa	768(%rsp), %xmm1
	movdqa	784(%rsp), %xmm2
	movdqa	800(%rsp), %xmm3
	movdqa	%xmm3, 1072(%rsp)
	movdqa	%xmm2, 1056(%rsp)
	movdqa	%xmm1, 1040(%rsp)
	movdqa	%xmm0, 1024(%rsp)
	movl	$10, %ecx
	xorl	%r15d, %r15d
	xorl	%r8d, %r8d
	movq	$0, 48(%rsp)
	xorl	%esi, %esi
.LBB2_1542:
	movq	%rcx, %rax
	andq	$-65536, %rax
	movl	%r15d, %r11d
	shrl	$8, %r11d
	movq	%r15, %r10
	shrq	$16, %r10
	movl	%esi, %r9d
	shrl	$8, %r9d
	movq	%rsi, %rbx
	shrq	$16, %rbx
	movq	48(%rsp), %rdi
	movl	%edi, %r13d
	shrl	$8, %r13d
	movq	%rdi, %r14
	shrq	$16, %r14
	movq	%rcx, %rdx
	movq	1104(%rsp), %rcx
	movq	%rcx, 1008(%rsp)
	movq	%rdx, %rcx
	movaps	1088(%rsp), %xmm0
	movaps	%xmm0, 992(%rsp)
	movaps	1024(%rsp), %xmm0
	movaps	1040(%rsp), %xmm1
	movaps	1056(%rsp), %xmm2
	movaps	1072(%rsp), %xmm3
	movaps	%xmm3, 976(%rsp)
	movaps	%xmm2, 960(%rsp)
	movaps	%xmm1, 944(%rsp)
	movaps	%xmm0, 928(%rsp)
	movl	$3, %r12d
.LBB2_1543:
	movzwl	%cx, %ecx
	orq	%rax, %rcx
	shlq	$16, %r10
	movzbl	%r11b, %edx
	shll	$8, %edx
	orq	%r10, %rdx
	movzbl	%r15b, %eax
	orq	%rdx, %rax
	shlq	$16, %rbx
	movzbl	%r9b, %edx
	shll	$8, %edx
	orq	%rbx, %rdx
	movzbl	%sil, %esi
	orq	%rdx, %rsi
	shlq	$16, %r14
	movzbl	%r13b, %edx
	shll	$8, %edx
	orq	%r14, %rdx
	movzbl	%dil, %edi
	orq	%rdx, %rdi
	movq	632(%rsp), %rdx
	movw	$1, (%rdx)
	movq	%r12, 8(%rdx)
	movq	%rcx, 16(%rdx)
	movq	%rax, 24(%rdx)
	movq	%rsi, 32(%rdx)
	movq	%rdi, 40(%rdx)
	movq	%r8, 48(%rdx)
	movaps	928(%rsp), %xmm0
	movaps	944(%rsp), %xmm1
	movaps	960(%rsp), %xmm2
	movaps	976(%rsp), %xmm3
	movups	%xmm0, 56(%rdx)
	movups	%xmm1, 72(%rdx)
	movups	%xmm2, 88(%rdx)
	movups	%xmm3, 104(%rdx)
	movaps	992(%rsp), %xmm0
	movups	%xmm0, 120(%rdx)
	movq	1008(%rsp), %rax
	movq	%rax, 136(%rdx)
.LBB2_1544:
	addq	$1528, %rsp
	popq	%rbx
	popq	%r12
	popq	%r13
	popq	%r14
	popq	%r15
	popq	%rbp
	retq
.LBB2_1545:
	movb	$1, %al
	movq	216(%rsp), %r13
	jmp	.LBB2_1551
.LBB2_1546:
	movq	216(%rsp), %r13
	jmp	.LBB2_1548
.LBB2_1547:
	movq	56(%rsp), %r14
.LBB2_1548:
	movq	40(%rsp), %rcx
	movq	72(%rsp), %rax
	jmp	.LBB2_1552
.LBB2_1549:
	movb	$1, %al
	movq	56(%rsp), %r14
	jmp	.LBB2_1551
.LBB2_1550:
	movb	$1, %al
.LBB2_1551:
	movq	40(%rsp), %rcx
.LBB2_1552:
	cmpb	$1, %al
	sete	%al
	cmpq	$0, (%r13)
	jne	.LBB2_1508
	jmp	.LBB2_1509
.LBB2_1553:
	movb	$1, %al
	xorl	%ecx, %ecx
	jmp	.LBB2_1552
.LBB2_1554:
	cmpq	$0, 40(%rsp)
	je	.LBB2_1556
	movq	%rbp, %rdi
	callq	rattle_dealloc@PLT
.LBB2_1556:
	movq	632(%rsp), %rax
	movw	$1, (%rax)
	movq	$4, 8(%rax)
	pxor	%xmm0, %xmm0
	movdqu	%xmm0, 16(%rax)
	movdqu	%xmm0, 32(%rax)
	movdqu	%xmm0, 48(%rax)
	movdqu	%xmm0, 64(%rax)
	movdqu	%xmm0, 80(%rax)
	movdqu	%xmm0, 96(%rax)
	movdqu	%xmm0, 112(%rax)
	movdqu	%xmm0, 128(%rax)
	jmp	.LBB2_1544
.Lfunc_end2:
	.size	"unftp_control_serve::engine::answer_lines::<#2e66f6333061c70c>", .Lfunc_end2-"unftp_control_serve::engine::answer_lines::<#2e66f6333061c70c>"
	.section	".rodata.unftp_control_serve::engine::answer_lines::<#2e66f6333061c70c>","a",@progbits
	.p2align	2, 0x0
.LJTI2_0:
	.long	.LBB2_68-.LJTI2_0
	.long	.LBB2_68-.LJTI2_0
	.long	.LBB2_68-.LJTI2_0
	.long	.LBB2_67-.LJTI2_0
	.long	.LBB2_68-.LJTI2_0
	.long	.LBB2_67-.LJTI2_0
	.long	.LBB2_66-.LJTI2_0
	.long	.LBB2_66-.LJTI2_0
	.long	.LBB2_67-.LJTI2_0
	.long	.LBB2_65-.LJTI2_0
	.long	.LBB2_65-.LJTI2_0
	.long	.LBB2_67-.LJTI2_0
	.long	.LBB2_64-.LJTI2_0
	.long	.LBB2_64-.LJTI2_0
	.long	.LBB2_64-.LJTI2_0
	.long	.LBB2_64-.LJTI2_0
	.long	.LBB2_87-.LJTI2_0
	.long	.LBB2_73-.LJTI2_0
	.long	.LBB2_73-.LJTI2_0
	.long	.LBB2_73-.LJTI2_0
	.long	.LBB2_65-.LJTI2_0
	.long	.LBB2_65-.LJTI2_0
	.long	.LBB2_64-.LJTI2_0
	.long	.LBB2_65-.LJTI2_0
	.long	.LBB2_66-.LJTI2_0
	.long	.LBB2_64-.LJTI2_0
	.long	.LBB2_64-.LJTI2_0
	.long	.LBB2_65-.LJTI2_0
	.long	.LBB2_64-.LJTI2_0
	.long	.LBB2_67-.LJTI2_0
	.long	.LBB2_65-.LJTI2_0
	.long	.LBB2_65-.LJTI2_0
	.long	.LBB2_64-.LJTI2_0
	.long	.LBB2_64-.LJTI2_0
	.long	.LBB2_66-.LJTI2_0
	.long	.LBB2_65-.LJTI2_0
	.long	.LBB2_66-.LJTI2_0
	.long	.LBB2_66-.LJTI2_0
	.long	.LBB2_64-.LJTI2_0
	.long	.LBB2_66-.LJTI2_0
	.long	.LBB2_64-.LJTI2_0
	.long	.LBB2_64-.LJTI2_0
	.long	.LBB2_83-.LJTI2_0
.LJTI2_1:
	.long	.LBB2_123-.LJTI2_1
	.long	.LBB2_152-.LJTI2_1
	.long	.LBB2_166-.LJTI2_1
	.long	.LBB2_170-.LJTI2_1
	.long	.LBB2_154-.LJTI2_1
	.long	.LBB2_174-.LJTI2_1
.LJTI2_2:
	.long	.LBB2_232-.LJTI2_2
	.long	.LBB2_232-.LJTI2_2
	.long	.LBB2_232-.LJTI2_2
	.long	.LBB2_192-.LJTI2_2
	.long	.LBB2_304-.LJTI2_2
	.long	.LBB2_192-.LJTI2_2
	.long	.LBB2_337-.LJTI2_2
	.long	.LBB2_371-.LJTI2_2
	.long	.LBB2_192-.LJTI2_2
	.long	.LBB2_192-.LJTI2_2
	.long	.LBB2_192-.LJTI2_2
	.long	.LBB2_192-.LJTI2_2
	.long	.LBB2_317-.LJTI2_2
	.long	.LBB2_327-.LJTI2_2
	.long	.LBB2_359-.LJTI2_2
	.long	.LBB2_376-.LJTI2_2
	.long	.LBB2_292-.LJTI2_2
	.long	.LBB2_283-.LJTI2_2
	.long	.LBB2_411-.LJTI2_2
	.long	.LBB2_244-.LJTI2_2
	.long	.LBB2_192-.LJTI2_2
	.long	.LBB2_192-.LJTI2_2
	.long	.LBB2_386-.LJTI2_2
	.long	.LBB2_192-.LJTI2_2
	.long	.LBB2_396-.LJTI2_2
	.long	.LBB2_339-.LJTI2_2
	.long	.LBB2_294-.LJTI2_2
	.long	.LBB2_192-.LJTI2_2
	.long	.LBB2_349-.LJTI2_2
	.long	.LBB2_192-.LJTI2_2
	.long	.LBB2_192-.LJTI2_2
	.long	.LBB2_192-.LJTI2_2
	.long	.LBB2_263-.LJTI2_2
	.long	.LBB2_253-.LJTI2_2
	.long	.LBB2_240-.LJTI2_2
	.long	.LBB2_192-.LJTI2_2
	.long	.LBB2_242-.LJTI2_2
	.long	.LBB2_238-.LJTI2_2
	.long	.LBB2_399-.LJTI2_2
	.long	.LBB2_369-.LJTI2_2
	.long	.LBB2_273-.LJTI2_2
	.long	.LBB2_307-.LJTI2_2
	.long	.LBB2_374-.LJTI2_2
	.long	.LBB2_236-.LJTI2_2
.LJTI2_3:
	.long	.LBB2_237-.LJTI2_3
	.long	.LBB2_375-.LJTI2_3
	.long	.LBB2_430-.LJTI2_3
	.long	.LBB2_428-.LJTI2_3
	.long	.LBB2_375-.LJTI2_3
	.long	.LBB2_375-.LJTI2_3
.LJTI2_4:
	.long	.LBB2_451-.LJTI2_4
	.long	.LBB2_375-.LJTI2_4
	.long	.LBB2_454-.LJTI2_4
	.long	.LBB2_452-.LJTI2_4
	.long	.LBB2_375-.LJTI2_4
	.long	.LBB2_375-.LJTI2_4
.LJTI2_5:
	.long	.LBB2_421-.LJTI2_5
	.long	.LBB2_412-.LJTI2_5
	.long	.LBB2_245-.LJTI2_5
	.long	.LBB2_422-.LJTI2_5
	.long	.LBB2_412-.LJTI2_5
	.long	.LBB2_412-.LJTI2_5
.LJTI2_6:
	.long	.LBB2_421-.LJTI2_6
	.long	.LBB2_412-.LJTI2_6
	.long	.LBB2_462-.LJTI2_6
	.long	.LBB2_422-.LJTI2_6
	.long	.LBB2_412-.LJTI2_6
	.long	.LBB2_412-.LJTI2_6
.LJTI2_7:
	.long	.LBB2_421-.LJTI2_7
	.long	.LBB2_412-.LJTI2_7
	.long	.LBB2_284-.LJTI2_7
	.long	.LBB2_422-.LJTI2_7
	.long	.LBB2_412-.LJTI2_7
	.long	.LBB2_412-.LJTI2_7
.LJTI2_8:
	.long	.LBB2_293-.LJTI2_8
	.long	.LBB2_412-.LJTI2_8
	.long	.LBB2_443-.LJTI2_8
	.long	.LBB2_441-.LJTI2_8
	.long	.LBB2_412-.LJTI2_8
	.long	.LBB2_412-.LJTI2_8
.LJTI2_9:
	.long	.LBB2_524-.LJTI2_9
	.long	.LBB2_950-.LJTI2_9
	.long	.LBB2_947-.LJTI2_9
	.long	.LBB2_948-.LJTI2_9
	.long	.LBB2_945-.LJTI2_9
	.long	.LBB2_951-.LJTI2_9
	.long	.LBB2_952-.LJTI2_9
	.long	.LBB2_949-.LJTI2_9
	.long	.LBB2_957-.LJTI2_9
	.long	.LBB2_946-.LJTI2_9
	.long	.LBB2_955-.LJTI2_9
	.long	.LBB2_944-.LJTI2_9
.LJTI2_10:
	.long	.LBB2_516-.LJTI2_10
	.long	.LBB2_592-.LJTI2_10
	.long	.LBB2_590-.LJTI2_10
	.long	.LBB2_591-.LJTI2_10
.LJTI2_11:
	.long	.LBB2_492-.LJTI2_11
	.long	.LBB2_492-.LJTI2_11
	.long	.LBB2_492-.LJTI2_11
	.long	.LBB2_492-.LJTI2_11
	.long	.LBB2_492-.LJTI2_11
	.long	.LBB2_492-.LJTI2_11
	.long	.LBB2_552-.LJTI2_11
	.long	.LBB2_548-.LJTI2_11
	.long	.LBB2_540-.LJTI2_11
	.long	.LBB2_532-.LJTI2_11
	.long	.LBB2_492-.LJTI2_11
	.long	.LBB2_1040-.LJTI2_11
	.long	.LBB2_492-.LJTI2_11
	.long	.LBB2_492-.LJTI2_11
	.long	.LBB2_492-.LJTI2_11
	.long	.LBB2_492-.LJTI2_11
	.long	.LBB2_492-.LJTI2_11
	.long	.LBB2_492-.LJTI2_11
	.long	.LBB2_1041-.LJTI2_11
	.long	.LBB2_492-.LJTI2_11
	.long	.LBB2_525-.LJTI2_11
	.long	.LBB2_492-.LJTI2_11
	.long	.LBB2_492-.LJTI2_11
	.long	.LBB2_492-.LJTI2_11
	.long	.LBB2_544-.LJTI2_11
	.long	.LBB2_492-.LJTI2_11
	.long	.LBB2_492-.LJTI2_11
	.long	.LBB2_529-.LJTI2_11
	.long	.LBB2_492-.LJTI2_11
	.long	.LBB2_492-.LJTI2_11
	.long	.LBB2_492-.LJTI2_11
	.long	.LBB2_492-.LJTI2_11
	.long	.LBB2_492-.LJTI2_11
	.long	.LBB2_492-.LJTI2_11
	.long	.LBB2_517-.LJTI2_11
	.long	.LBB2_492-.LJTI2_11
	.long	.LBB2_492-.LJTI2_11
	.long	.LBB2_517-.LJTI2_11
	.long	.LBB2_492-.LJTI2_11
	.long	.LBB2_492-.LJTI2_11
	.long	.LBB2_492-.LJTI2_11
	.long	.LBB2_492-.LJTI2_11
	.long	.LBB2_535-.LJTI2_11
	.long	.LBB2_492-.LJTI2_11
.LJTI2_12:
	.long	.LBB2_573-.LJTI2_12
	.long	.LBB2_566-.LJTI2_12
	.long	.LBB2_560-.LJTI2_12
	.long	.LBB2_502-.LJTI2_12
	.long	.LBB2_568-.LJTI2_12
	.long	.LBB2_502-.LJTI2_12
	.long	.LBB2_502-.LJTI2_12
	.long	.LBB2_502-.LJTI2_12
	.long	.LBB2_502-.LJTI2_12
	.long	.LBB2_502-.LJTI2_12
	.long	.LBB2_502-.LJTI2_12
	.long	.LBB2_502-.LJTI2_12
	.long	.LBB2_499-.LJTI2_12
	.long	.LBB2_499-.LJTI2_12
	.long	.LBB2_499-.LJTI2_12
	.long	.LBB2_499-.LJTI2_12
	.long	.LBB2_578-.LJTI2_12
	.long	.LBB2_520-.LJTI2_12
	.long	.LBB2_502-.LJTI2_12
	.long	.LBB2_520-.LJTI2_12
	.long	.LBB2_502-.LJTI2_12
	.long	.LBB2_502-.LJTI2_12
	.long	.LBB2_499-.LJTI2_12
	.long	.LBB2_502-.LJTI2_12
	.long	.LBB2_502-.LJTI2_12
	.long	.LBB2_499-.LJTI2_12
	.long	.LBB2_499-.LJTI2_12
	.long	.LBB2_502-.LJTI2_12
	.long	.LBB2_499-.LJTI2_12
	.long	.LBB2_502-.LJTI2_12
	.long	.LBB2_502-.LJTI2_12
	.long	.LBB2_502-.LJTI2_12
	.long	.LBB2_499-.LJTI2_12
	.long	.LBB2_499-.LJTI2_12
	.long	.LBB2_502-.LJTI2_12
	.long	.LBB2_502-.LJTI2_12
	.long	.LBB2_502-.LJTI2_12
	.long	.LBB2_502-.LJTI2_12
	.long	.LBB2_499-.LJTI2_12
	.long	.LBB2_502-.LJTI2_12
	.long	.LBB2_499-.LJTI2_12
	.long	.LBB2_499-.LJTI2_12
	.long	.LBB2_502-.LJTI2_12
	.long	.LBB2_562-.LJTI2_12
.LJTI2_13:
	.long	.LBB2_693-.LJTI2_13
	.long	.LBB2_511-.LJTI2_13
	.long	.LBB2_628-.LJTI2_13
	.long	.LBB2_630-.LJTI2_13
	.long	.LBB2_622-.LJTI2_13
	.long	.LBB2_639-.LJTI2_13
	.long	.LBB2_643-.LJTI2_13
	.long	.LBB2_632-.LJTI2_13
	.long	.LBB2_648-.LJTI2_13
	.long	.LBB2_625-.LJTI2_13
	.long	.LBB2_647-.LJTI2_13
	.long	.LBB2_618-.LJTI2_13
	.long	.LBB2_624-.LJTI2_13
	.long	.LBB2_642-.LJTI2_13
	.long	.LBB2_615-.LJTI2_13
	.long	.LBB2_629-.LJTI2_13
	.long	.LBB2_611-.LJTI2_13
	.long	.LBB2_634-.LJTI2_13
	.long	.LBB2_645-.LJTI2_13
	.long	.LBB2_673-.LJTI2_13
	.long	.LBB2_638-.LJTI2_13
	.long	.LBB2_641-.LJTI2_13
	.long	.LBB2_666-.LJTI2_13
	.long	.LBB2_675-.LJTI2_13
	.long	.LBB2_627-.LJTI2_13
	.long	.LBB2_626-.LJTI2_13
	.long	.LBB2_683-.LJTI2_13
	.long	.LBB2_608-.LJTI2_13
	.long	.LBB2_676-.LJTI2_13
	.long	.LBB2_677-.LJTI2_13
	.long	.LBB2_651-.LJTI2_13
	.long	.LBB2_633-.LJTI2_13
	.long	.LBB2_652-.LJTI2_13
	.long	.LBB2_616-.LJTI2_13
	.long	.LBB2_609-.LJTI2_13
	.long	.LBB2_604-.LJTI2_13
	.long	.LBB2_605-.LJTI2_13
	.long	.LBB2_602-.LJTI2_13
	.long	.LBB2_680-.LJTI2_13
	.long	.LBB2_672-.LJTI2_13
	.long	.LBB2_623-.LJTI2_13
	.long	.LBB2_637-.LJTI2_13
	.long	.LBB2_674-.LJTI2_13
	.long	.LBB2_601-.LJTI2_13
	.long	.LBB2_612-.LJTI2_13
	.long	.LBB2_659-.LJTI2_13
	.long	.LBB2_691-.LJTI2_13
.LJTI2_14:
	.long	.LBB2_513-.LJTI2_14
	.long	.LBB2_656-.LJTI2_14
	.long	.LBB2_650-.LJTI2_14
	.long	.LBB2_654-.LJTI2_14
	.long	.LBB2_635-.LJTI2_14
	.long	.LBB2_662-.LJTI2_14
	.long	.LBB2_665-.LJTI2_14
	.long	.LBB2_655-.LJTI2_14
	.long	.LBB2_669-.LJTI2_14
	.long	.LBB2_644-.LJTI2_14
	.long	.LBB2_668-.LJTI2_14
	.long	.LBB2_631-.LJTI2_14
	.long	.LBB2_640-.LJTI2_14
	.long	.LBB2_664-.LJTI2_14
	.long	.LBB2_620-.LJTI2_14
	.long	.LBB2_653-.LJTI2_14
	.long	.LBB2_617-.LJTI2_14
	.long	.LBB2_658-.LJTI2_14
	.long	.LBB2_667-.LJTI2_14
	.long	.LBB2_682-.LJTI2_14
	.long	.LBB2_661-.LJTI2_14
	.long	.LBB2_663-.LJTI2_14
	.long	.LBB2_679-.LJTI2_14
	.long	.LBB2_685-.LJTI2_14
	.long	.LBB2_649-.LJTI2_14
	.long	.LBB2_646-.LJTI2_14
	.long	.LBB2_689-.LJTI2_14
	.long	.LBB2_613-.LJTI2_14
	.long	.LBB2_686-.LJTI2_14
	.long	.LBB2_687-.LJTI2_14
	.long	.LBB2_670-.LJTI2_14
	.long	.LBB2_657-.LJTI2_14
	.long	.LBB2_671-.LJTI2_14
	.long	.LBB2_621-.LJTI2_14
	.long	.LBB2_614-.LJTI2_14
	.long	.LBB2_607-.LJTI2_14
	.long	.LBB2_610-.LJTI2_14
	.long	.LBB2_606-.LJTI2_14
	.long	.LBB2_688-.LJTI2_14
	.long	.LBB2_681-.LJTI2_14
	.long	.LBB2_636-.LJTI2_14
	.long	.LBB2_660-.LJTI2_14
	.long	.LBB2_684-.LJTI2_14
	.long	.LBB2_603-.LJTI2_14
	.long	.LBB2_619-.LJTI2_14
	.long	.LBB2_678-.LJTI2_14
	.long	.LBB2_810-.LJTI2_14

	.section	".text.unftp_control_codecs::line_parser::parser::any_verb_len","ax",@progbits
	.p2align	4
	.type	"unftp_control_codecs::line_parser::parser::any_verb_len",@function
"unftp_control_codecs::line_parser::parser::any_verb_len":
	pushq	%rbx
	cmpq	$5, %rsi
	movl	$5, %ebx
	cmovbq	%rsi, %rbx
	testq	%rsi, %rsi
	je	.LBB3_16
	movzbl	(%rdi), %eax
	cmpq	$32, %rax
	ja	.LBB3_4
	movabsq	$4294976512, %rcx
	btq	%rax, %rcx
	jae	.LBB3_4
	xorl	%eax, %eax
	popq	%rbx
	retq
.LBB3_4:
	cmpq	$1, %rsi
	jne	.LBB3_5
.LBB3_16:
	addq	%rbx, %rdi
	subq	%rbx, %rsi
	callq	"unftp_control_codecs::line_parser::parser::word_len"
	addq	%rbx, %rax
.LBB3_17:
	popq	%rbx
	retq
.LBB3_5:
	movzbl	1(%rdi), %ecx
	cmpq	$32, %rcx
	ja	.LBB3_7
	movl	$1, %eax
	movabsq	$4294976512, %rdx
	btq	%rcx, %rdx
	jb	.LBB3_17
.LBB3_7:
	cmpq	$2, %rsi
	je	.LBB3_16
	movzbl	2(%rdi), %ecx
	cmpq	$32, %rcx
	ja	.LBB3_10
	movl	$2, %eax
	movabsq	$4294976512, %rdx
	btq	%rcx, %rdx
	jb	.LBB3_17
.LBB3_10:
	cmpq	$3, %rsi
	je	.LBB3_16
	movzbl	3(%rdi), %ecx
	cmpq	$32, %rcx
	ja	.LBB3_13
	movl	$3, %eax
	movabsq	$4294976512, %rdx
	btq	%rcx, %rdx
	jb	.LBB3_17
.LBB3_13:
	cmpq	$4, %rsi
	je	.LBB3_16
	movzbl	4(%rdi), %ecx
	cmpq	$32, %rcx
	ja	.LBB3_16
	movl	$4, %eax
	movabsq	$4294976512, %rdx
	btq	%rcx, %rdx
	jb	.LBB3_17
	jmp	.LBB3_16
.Lfunc_end3:
	.size	"unftp_control_codecs::line_parser::parser::any_verb_len", .Lfunc_end3-"unftp_control_codecs::line_parser::parser::any_verb_len"

	.section	.rodata.cst16,"aM",@progbits,16
	.p2align	4, 0x0
.LCPI4_0:
	.zero	16,32
.LCPI4_1:
	.zero	16,13
.LCPI4_2:
	.zero	16,10
	.section	".text.unftp_control_codecs::line_parser::parser::word_len","ax",@progbits
	.p2align	4
	.type	"unftp_control_codecs::line_parser::parser::word_len",@function
"unftp_control_codecs::line_parser::parser::word_len":
	movabsq	$4294976512, %r11
	cmpq	$32, %rsi
	jae	.LBB4_1
	xorl	%eax, %eax
	testq	%rsi, %rsi
	jne	.LBB4_7
.LBB4_11:
	retq
	.p2align	4
.LBB4_9:
	incq	%rax
	cmpq	%rax, %rsi
	je	.LBB4_10
.LBB4_7:
	movzbl	(%rdi,%rax), %ecx
	cmpq	$32, %rcx
	ja	.LBB4_9
	btq	%rcx, %r11
	jae	.LBB4_9
	jmp	.LBB4_11
.LBB4_1:
	pushq	%rbp
	pushq	%r15
	pushq	%r14
	pushq	%r13
	pushq	%r12
	pushq	%rbx
	subq	$424, %rsp
	leaq	-64(%rsi), %rbx
	xorl	%edx, %edx
.LBB4_2:
	movq	%rsi, %rax
	subq	%rdx, %rax
	cmpq	$191, %rax
	jbe	.LBB4_3
	movdqa	.LCPI4_0(%rip), %xmm0
	movdqu	(%rdi,%rdx), %xmm6
	movdqu	16(%rdi,%rdx), %xmm5
	movdqu	32(%rdi,%rdx), %xmm4
	movdqu	48(%rdi,%rdx), %xmm3
	movdqa	%xmm5, %xmm2
	pcmpeqb	%xmm0, %xmm2
	movdqa	%xmm6, %xmm7
	pcmpeqb	%xmm0, %xmm7
	movdqa	.LCPI4_1(%rip), %xmm1
	movdqa	%xmm5, %xmm8
	pcmpeqb	%xmm1, %xmm8
	por	%xmm2, %xmm8
	movdqa	%xmm6, %xmm9
	pcmpeqb	%xmm1, %xmm9
	por	%xmm7, %xmm9
	movdqa	.LCPI4_2(%rip), %xmm2
	pcmpeqb	%xmm2, %xmm6
	por	%xmm9, %xmm6
	pcmpeqb	%xmm2, %xmm5
	por	%xmm8, %xmm5
	movdqa	%xmm3, %xmm7
	pcmpeqb	%xmm0, %xmm7
	movdqa	%xmm4, %xmm8
	pcmpeqb	%xmm0, %xmm8
	movdqa	%xmm3, %xmm9
	pcmpeqb	%xmm1, %xmm9
	por	%xmm7, %xmm9
	movdqa	%xmm4, %xmm7
	pcmpeqb	%xmm1, %xmm7
	por	%xmm8, %xmm7
	pcmpeqb	%xmm2, %xmm4
	por	%xmm7, %xmm4
	pcmpeqb	%xmm2, %xmm3
	por	%xmm9, %xmm3
	pmovmskb	%xmm6, %eax
	pmovmskb	%xmm5, %ecx
	shll	$16, %ecx
	orl	%eax, %ecx
	pmovmskb	%xmm4, %eax
	shlq	$32, %rax
	orq	%rcx, %rax
	pmovmskb	%xmm3, %r9d
	shlq	$48, %r9
	leaq	64(%rdx), %r14
	orq	%rax, %r9
	jne	.LBB4_44
	movq	%rsi, %rax
	subq	%r14, %rax
	cmpq	$128, %rax
	jb	.LBB4_17
	movq	%rbx, 208(%rsp)
	movq	%rsi, 216(%rsp)
	subq	$-128, %rdx
	movq	%rdx, %r9
	movq	%rdi, 224(%rsp)
	.p2align	4
.LBB4_25:
	movq	%rax, 192(%rsp)
	movdqu	-64(%rdi,%r9), %xmm4
	movdqu	-48(%rdi,%r9), %xmm3
	movdqu	-32(%rdi,%r9), %xmm5
	movdqu	-16(%rdi,%r9), %xmm6
	movdqa	%xmm3, %xmm7
	pcmpeqb	%xmm0, %xmm7
	movdqa	%xmm4, %xmm8
	pcmpeqb	%xmm0, %xmm8
	movdqa	%xmm3, %xmm9
	pcmpeqb	%xmm1, %xmm9
	por	%xmm7, %xmm9
	movdqa	%xmm4, %xmm7
	pcmpeqb	%xmm1, %xmm7
	por	%xmm8, %xmm7
	pcmpeqb	%xmm2, %xmm4
	por	%xmm7, %xmm4
	pcmpeqb	%xmm2, %xmm3
	por	%xmm9, %xmm3
	movdqa	%xmm3, -48(%rsp)
	movdqa	%xmm4, 48(%rsp)
	movzbl	-33(%rsp), %eax
	movb	%al, 320(%rsp)
	movzbl	-34(%rsp), %eax
	movb	%al, 304(%rsp)
	movzbl	-35(%rsp), %eax
	movb	%al, 288(%rsp)
	movzbl	-36(%rsp), %eax
	movb	%al, 400(%rsp)
	movzbl	-37(%rsp), %eax
	movb	%al, 272(%rsp)
	movzbl	-38(%rsp), %eax
	movb	%al, 384(%rsp)
	movzbl	-39(%rsp), %eax
	movb	%al, -65(%rsp)
	movzbl	-40(%rsp), %eax
	movb	%al, -66(%rsp)
	movzbl	-41(%rsp), %eax
	movb	%al, 368(%rsp)
	movzbl	-42(%rsp), %eax
	movb	%al, -67(%rsp)
	movzbl	-43(%rsp), %eax
	movb	%al, -68(%rsp)
	movzbl	-44(%rsp), %eax
	movb	%al, -69(%rsp)
	movzbl	-45(%rsp), %eax
	movb	%al, 352(%rsp)
	movzbl	-46(%rsp), %eax
	movb	%al, -70(%rsp)
	movzbl	-48(%rsp), %eax
	movb	%al, -72(%rsp)
	movzbl	-47(%rsp), %eax
	movb	%al, -71(%rsp)
	movzbl	63(%rsp), %eax
	movb	%al, 336(%rsp)
	movdqa	%xmm6, %xmm7
	pcmpeqb	%xmm0, %xmm7
	movdqa	%xmm5, %xmm8
	pcmpeqb	%xmm0, %xmm8
	movdqa	%xmm6, %xmm9
	pcmpeqb	%xmm1, %xmm9
	por	%xmm7, %xmm9
	movdqa	%xmm5, %xmm7
	pcmpeqb	%xmm1, %xmm7
	por	%xmm8, %xmm7
	pcmpeqb	%xmm2, %xmm5
	por	%xmm7, %xmm5
	pcmpeqb	%xmm2, %xmm6
	por	%xmm9, %xmm6
	movzbl	62(%rsp), %eax
	movb	%al, 188(%rsp)
	movzbl	61(%rsp), %eax
	movb	%al, 184(%rsp)
	movzbl	60(%rsp), %eax
	movb	%al, 180(%rsp)
	movzbl	59(%rsp), %eax
	movb	%al, 256(%rsp)
	movzbl	58(%rsp), %eax
	movb	%al, 240(%rsp)
	movzbl	57(%rsp), %eax
	movb	%al, -73(%rsp)
	movzbl	56(%rsp), %eax
	movb	%al, -74(%rsp)
	movzbl	55(%rsp), %eax
	movb	%al, -75(%rsp)
	movzbl	54(%rsp), %eax
	movb	%al, -76(%rsp)
	movzbl	53(%rsp), %eax
	movb	%al, -77(%rsp)
	movzbl	52(%rsp), %eax
	movb	%al, -78(%rsp)
	movzbl	51(%rsp), %eax
	movb	%al, -79(%rsp)
	movzbl	50(%rsp), %eax
	movb	%al, -80(%rsp)
	movzbl	48(%rsp), %eax
	movb	%al, -82(%rsp)
	movzbl	49(%rsp), %eax
	movb	%al, -81(%rsp)
	movdqa	%xmm6, -32(%rsp)
	movdqa	%xmm5, 32(%rsp)
	movdqu	(%rdi,%r9), %xmm8
	movdqu	16(%rdi,%r9), %xmm7
	movdqa	%xmm7, %xmm9
	pcmpeqb	%xmm0, %xmm9
	movdqa	%xmm8, %xmm10
	pcmpeqb	%xmm0, %xmm10
	movdqa	%xmm7, %xmm11
	pcmpeqb	%xmm1, %xmm11
	por	%xmm9, %xmm11
	movdqa	%xmm8, %xmm9
	pcmpeqb	%xmm1, %xmm9
	por	%xmm10, %xmm9
	pcmpeqb	%xmm2, %xmm8
	por	%xmm9, %xmm8
	pcmpeqb	%xmm2, %xmm7
	por	%xmm11, %xmm7
	movzbl	-17(%rsp), %eax
	movb	%al, 140(%rsp)
	movzbl	-18(%rsp), %eax
	movb	%al, 132(%rsp)
	movzbl	-19(%rsp), %eax
	movb	%al, 124(%rsp)
	movzbl	-20(%rsp), %eax
	movb	%al, 116(%rsp)
	movzbl	-21(%rsp), %eax
	movb	%al, 104(%rsp)
	movzbl	-22(%rsp), %eax
	movb	%al, 100(%rsp)
	movzbl	-23(%rsp), %eax
	movb	%al, 96(%rsp)
	movzbl	-24(%rsp), %eax
	movb	%al, 92(%rsp)
	movzbl	-25(%rsp), %eax
	movb	%al, 88(%rsp)
	movzbl	-26(%rsp), %eax
	movb	%al, 84(%rsp)
	movzbl	-27(%rsp), %eax
	movb	%al, 80(%rsp)
	movzbl	-28(%rsp), %eax
	movb	%al, 76(%rsp)
	movzbl	-29(%rsp), %eax
	movb	%al, 72(%rsp)
	movzbl	-30(%rsp), %eax
	movb	%al, 68(%rsp)
	movzbl	-32(%rsp), %eax
	movb	%al, 64(%rsp)
	movzbl	-31(%rsp), %eax
	movb	%al, -85(%rsp)
	movzbl	47(%rsp), %eax
	movb	%al, -83(%rsp)
	movzbl	46(%rsp), %eax
	movb	%al, -84(%rsp)
	movzbl	45(%rsp), %eax
	movb	%al, 176(%rsp)
	movzbl	44(%rsp), %eax
	movb	%al, 172(%rsp)
	movzbl	43(%rsp), %eax
	movb	%al, 168(%rsp)
	movzbl	42(%rsp), %eax
	movb	%al, 164(%rsp)
	movzbl	41(%rsp), %eax
	movb	%al, 160(%rsp)
	movzbl	40(%rsp), %eax
	movb	%al, 156(%rsp)
	movzbl	39(%rsp), %eax
	movb	%al, 152(%rsp)
	movzbl	38(%rsp), %eax
	movb	%al, 148(%rsp)
	movzbl	37(%rsp), %eax
	movb	%al, 144(%rsp)
	movzbl	36(%rsp), %eax
	movb	%al, 136(%rsp)
	movzbl	35(%rsp), %eax
	movb	%al, 128(%rsp)
	movzbl	34(%rsp), %eax
	movb	%al, 120(%rsp)
	movzbl	32(%rsp), %eax
	movb	%al, 108(%rsp)
	movzbl	33(%rsp), %eax
	movb	%al, 112(%rsp)
	movdqa	%xmm7, (%rsp)
	movdqa	%xmm8, -64(%rsp)
	movdqu	32(%rdi,%r9), %xmm10
	movq	%r9, 232(%rsp)
	movdqu	48(%rdi,%r9), %xmm9
	movdqa	%xmm9, %xmm11
	pcmpeqb	%xmm0, %xmm11
	movdqa	%xmm10, %xmm12
	pcmpeqb	%xmm0, %xmm12
	movdqa	%xmm9, %xmm13
	pcmpeqb	%xmm1, %xmm13
	por	%xmm11, %xmm13
	movdqa	%xmm10, %xmm11
	pcmpeqb	%xmm1, %xmm11
	por	%xmm12, %xmm11
	pcmpeqb	%xmm2, %xmm10
	por	%xmm11, %xmm10
	pcmpeqb	%xmm2, %xmm9
	por	%xmm13, %xmm9
	movzbl	15(%rsp), %eax
	movb	%al, -86(%rsp)
	movzbl	14(%rsp), %eax
	movb	%al, -87(%rsp)
	movzbl	13(%rsp), %eax
	movb	%al, -88(%rsp)
	movzbl	12(%rsp), %eax
	movb	%al, -89(%rsp)
	movzbl	11(%rsp), %eax
	movb	%al, -90(%rsp)
	movzbl	10(%rsp), %eax
	movb	%al, -91(%rsp)
	movzbl	9(%rsp), %eax
	movb	%al, -92(%rsp)
	movzbl	8(%rsp), %eax
	movb	%al, -93(%rsp)
	movzbl	7(%rsp), %eax
	movb	%al, -94(%rsp)
	movzbl	6(%rsp), %eax
	movb	%al, -95(%rsp)
	movzbl	5(%rsp), %eax
	movb	%al, -96(%rsp)
	movzbl	4(%rsp), %eax
	movb	%al, -97(%rsp)
	movzbl	3(%rsp), %eax
	movb	%al, -98(%rsp)
	movzbl	2(%rsp), %eax
	movb	%al, -99(%rsp)
	movzbl	(%rsp), %eax
	movb	%al, -101(%rsp)
	movzbl	1(%rsp), %eax
	movb	%al, -100(%rsp)
	movzbl	-49(%rsp), %eax
	movb	%al, -102(%rsp)
	movzbl	-50(%rsp), %eax
	movb	%al, -103(%rsp)
	movzbl	-51(%rsp), %ecx
	movzbl	-52(%rsp), %r11d
	movzbl	-53(%rsp), %ebx
	movzbl	-54(%rsp), %ebp
	movzbl	-55(%rsp), %r15d
	movzbl	-56(%rsp), %r14d
	movzbl	-57(%rsp), %r10d
	movzbl	-58(%rsp), %r13d
	movzbl	-59(%rsp), %edi
	movzbl	-60(%rsp), %r8d
	movzbl	-61(%rsp), %eax
	movzbl	-62(%rsp), %esi
	movzbl	-64(%rsp), %edx
	movzbl	-63(%rsp), %r12d
	movdqa	%xmm9, -16(%rsp)
	movdqa	%xmm10, 16(%rsp)
	por	%xmm8, %xmm10
	por	%xmm7, %xmm9
	por	%xmm6, %xmm9
	por	%xmm5, %xmm10
	por	%xmm4, %xmm10
	por	%xmm3, %xmm9
	por	%xmm10, %xmm9
	pmovmskb	%xmm9, %r9d
	testl	%r9d, %r9d
	jne	.LBB4_27
	movq	232(%rsp), %r9
	subq	$-128, %r9
	movq	192(%rsp), %rax
	addq	$-128, %rax
	cmpq	$127, %rax
	movq	224(%rsp), %rdi
	ja	.LBB4_25
	addq	$-64, %r9
	movq	%r9, %rdx
	movq	216(%rsp), %rsi
	movabsq	$4294976512, %r11
	movq	208(%rsp), %rbx
	cmpq	$32, %rax
	jae	.LBB4_20
	jmp	.LBB4_23
	.p2align	4
.LBB4_3:
	cmpq	$64, %rax
	jb	.LBB4_32
	.p2align	4
.LBB4_4:
	movdqu	(%rdi,%rdx), %xmm5
	movdqu	16(%rdi,%rdx), %xmm6
	movdqu	32(%rdi,%rdx), %xmm4
	movdqu	48(%rdi,%rdx), %xmm3
	movdqa	.LCPI4_0(%rip), %xmm0
	movdqa	%xmm6, %xmm2
	pcmpeqb	%xmm0, %xmm2
	movdqa	%xmm5, %xmm7
	pcmpeqb	%xmm0, %xmm7
	movdqa	.LCPI4_1(%rip), %xmm1
	movdqa	%xmm6, %xmm8
	pcmpeqb	%xmm1, %xmm8
	por	%xmm2, %xmm8
	movdqa	%xmm5, %xmm9
	pcmpeqb	%xmm1, %xmm9
	por	%xmm7, %xmm9
	movdqa	.LCPI4_2(%rip), %xmm2
	movdqa	%xmm5, %xmm7
	pcmpeqb	%xmm2, %xmm7
	por	%xmm9, %xmm7
	movdqa	%xmm6, %xmm9
	pcmpeqb	%xmm2, %xmm9
	por	%xmm8, %xmm9
	movdqa	%xmm3, %xmm8
	pcmpeqb	%xmm0, %xmm8
	movdqa	%xmm4, %xmm10
	pcmpeqb	%xmm0, %xmm10
	movdqa	%xmm3, %xmm11
	pcmpeqb	%xmm1, %xmm11
	por	%xmm8, %xmm11
	movdqa	%xmm4, %xmm8
	pcmpeqb	%xmm1, %xmm8
	por	%xmm10, %xmm8
	movdqa	%xmm4, %xmm10
	pcmpeqb	%xmm2, %xmm10
	por	%xmm8, %xmm10
	por	%xmm7, %xmm10
	movdqa	%xmm3, %xmm7
	pcmpeqb	%xmm2, %xmm7
	por	%xmm11, %xmm7
	por	%xmm9, %xmm7
	por	%xmm10, %xmm7
	pmovmskb	%xmm7, %ecx
	testl	%ecx, %ecx
	jne	.LBB4_38
	addq	$64, %rdx
	addq	$-64, %rax
	cmpq	$63, %rax
	ja	.LBB4_4
	jmp	.LBB4_32
.LBB4_38:
	cmpq	$64, %rax
	jb	.LBB4_32
.LBB4_39:
	movdqa	%xmm6, %xmm7
	pcmpeqb	%xmm0, %xmm7
	movdqa	%xmm5, %xmm8
	pcmpeqb	%xmm0, %xmm8
	movdqa	%xmm6, %xmm9
	pcmpeqb	%xmm1, %xmm9
	por	%xmm7, %xmm9
	movdqa	%xmm5, %xmm7
	pcmpeqb	%xmm1, %xmm7
	por	%xmm8, %xmm7
	pcmpeqb	%xmm2, %xmm5
	por	%xmm7, %xmm5
	pcmpeqb	%xmm2, %xmm6
	por	%xmm9, %xmm6
	movdqa	%xmm3, %xmm7
	pcmpeqb	%xmm0, %xmm7
	movdqa	%xmm4, %xmm8
	pcmpeqb	%xmm0, %xmm8
	movdqa	%xmm3, %xmm9
	pcmpeqb	%xmm1, %xmm9
	por	%xmm7, %xmm9
	movdqa	%xmm4, %xmm7
	pcmpeqb	%xmm1, %xmm7
	por	%xmm8, %xmm7
	pcmpeqb	%xmm2, %xmm4
	por	%xmm7, %xmm4
	pcmpeqb	%xmm2, %xmm3
	por	%xmm9, %xmm3
	pmovmskb	%xmm5, %eax
	pmovmskb	%xmm6, %ecx
	shll	$16, %ecx
	orl	%eax, %ecx
	pmovmskb	%xmm4, %eax
	shlq	$32, %rax
	orq	%rcx, %rax
	pmovmskb	%xmm3, %r9d
	shlq	$48, %r9
	orq	%rax, %r9
	jne	.LBB4_47
	movq	%rbx, %rax
	subq	%rdx, %rax
	.p2align	4
.LBB4_41:
	cmpq	$64, %rax
	jb	.LBB4_31
	movdqu	64(%rdi,%rdx), %xmm5
	movdqu	80(%rdi,%rdx), %xmm6
	movdqu	96(%rdi,%rdx), %xmm4
	movdqu	112(%rdi,%rdx), %xmm3
	movdqa	%xmm6, %xmm7
	pcmpeqb	%xmm0, %xmm7
	movdqa	%xmm5, %xmm8
	pcmpeqb	%xmm0, %xmm8
	movdqa	%xmm6, %xmm9
	pcmpeqb	%xmm1, %xmm9
	por	%xmm7, %xmm9
	movdqa	%xmm5, %xmm7
	pcmpeqb	%xmm1, %xmm7
	por	%xmm8, %xmm7
	movdqa	%xmm5, %xmm8
	pcmpeqb	%xmm2, %xmm8
	por	%xmm7, %xmm8
	movdqa	%xmm6, %xmm7
	pcmpeqb	%xmm2, %xmm7
	por	%xmm9, %xmm7
	movdqa	%xmm3, %xmm9
	pcmpeqb	%xmm0, %xmm9
	movdqa	%xmm4, %xmm10
	pcmpeqb	%xmm0, %xmm10
	movdqa	%xmm3, %xmm11
	pcmpeqb	%xmm1, %xmm11
	por	%xmm9, %xmm11
	movdqa	%xmm4, %xmm9
	pcmpeqb	%xmm1, %xmm9
	por	%xmm10, %xmm9
	movdqa	%xmm4, %xmm10
	pcmpeqb	%xmm2, %xmm10
	por	%xmm9, %xmm10
	por	%xmm8, %xmm10
	movdqa	%xmm3, %xmm8
	pcmpeqb	%xmm2, %xmm8
	por	%xmm11, %xmm8
	por	%xmm7, %xmm8
	por	%xmm10, %xmm8
	pmovmskb	%xmm8, %ecx
	addq	$-64, %rax
	addq	$64, %rdx
	testl	%ecx, %ecx
	je	.LBB4_41
	jmp	.LBB4_39
.LBB4_17:
	movq	%r14, %rdx
	cmpq	$32, %rax
	jb	.LBB4_23
.LBB4_20:
	movq	%rsi, %rax
	subq	%rdx, %rax
	.p2align	4
.LBB4_21:
	movdqu	(%rdi,%rdx), %xmm3
	movdqu	16(%rdi,%rdx), %xmm4
	movdqa	%xmm4, %xmm5
	pcmpeqb	%xmm0, %xmm5
	movdqa	%xmm3, %xmm6
	pcmpeqb	%xmm0, %xmm6
	movdqa	%xmm4, %xmm7
	pcmpeqb	%xmm1, %xmm7
	por	%xmm5, %xmm7
	movdqa	%xmm3, %xmm5
	pcmpeqb	%xmm1, %xmm5
	por	%xmm6, %xmm5
	pcmpeqb	%xmm2, %xmm3
	por	%xmm5, %xmm3
	pcmpeqb	%xmm2, %xmm4
	por	%xmm7, %xmm4
	pmovmskb	%xmm3, %r8d
	pmovmskb	%xmm4, %ecx
	shll	$16, %ecx
	orl	%r8d, %ecx
	jne	.LBB4_43
	addq	$-32, %rax
	addq	$32, %rdx
	cmpq	$31, %rax
	ja	.LBB4_21
.LBB4_23:
	movdqu	-32(%rdi,%rsi), %xmm3
	movdqu	-16(%rdi,%rsi), %xmm4
	movdqa	%xmm4, %xmm5
	pcmpeqb	%xmm0, %xmm5
	pcmpeqb	%xmm3, %xmm0
	movdqa	%xmm4, %xmm6
	pcmpeqb	%xmm1, %xmm6
	por	%xmm5, %xmm6
	pcmpeqb	%xmm3, %xmm1
	por	%xmm0, %xmm1
	pcmpeqb	%xmm2, %xmm3
	por	%xmm1, %xmm3
	pcmpeqb	%xmm2, %xmm4
	por	%xmm6, %xmm4
	pmovmskb	%xmm3, %eax
	pmovmskb	%xmm4, %r9d
	jmp	.LBB4_37
.LBB4_31:
	addq	$64, %rdx
	.p2align	4
.LBB4_32:
	cmpq	$32, %rax
	jb	.LBB4_36
	movq	%rsi, %rax
	subq	%rdx, %rax
	.p2align	4
.LBB4_34:
	movdqu	(%rdi,%rdx), %xmm0
	movdqu	16(%rdi,%rdx), %xmm1
	movdqa	.LCPI4_0(%rip), %xmm2
	movdqa	%xmm1, %xmm3
	pcmpeqb	%xmm2, %xmm3
	pcmpeqb	%xmm0, %xmm2
	movdqa	.LCPI4_1(%rip), %xmm4
	movdqa	%xmm1, %xmm5
	pcmpeqb	%xmm4, %xmm5
	por	%xmm3, %xmm5
	pcmpeqb	%xmm0, %xmm4
	por	%xmm2, %xmm4
	movdqa	.LCPI4_2(%rip), %xmm2
	pcmpeqb	%xmm2, %xmm0
	por	%xmm4, %xmm0
	pcmpeqb	%xmm2, %xmm1
	por	%xmm5, %xmm1
	pmovmskb	%xmm0, %r8d
	pmovmskb	%xmm1, %ecx
	shll	$16, %ecx
	orl	%r8d, %ecx
	jne	.LBB4_43
	addq	$-32, %rax
	addq	$32, %rdx
	cmpq	$31, %rax
	ja	.LBB4_34
.LBB4_36:
	movdqu	-32(%rdi,%rsi), %xmm0
	movdqu	-16(%rdi,%rsi), %xmm1
	movdqa	.LCPI4_0(%rip), %xmm2
	movdqa	%xmm1, %xmm3
	pcmpeqb	%xmm2, %xmm3
	pcmpeqb	%xmm0, %xmm2
	movdqa	.LCPI4_1(%rip), %xmm4
	movdqa	%xmm1, %xmm5
	pcmpeqb	%xmm4, %xmm5
	por	%xmm3, %xmm5
	pcmpeqb	%xmm0, %xmm4
	por	%xmm2, %xmm4
	movdqa	.LCPI4_2(%rip), %xmm2
	pcmpeqb	%xmm2, %xmm0
	por	%xmm4, %xmm0
	pcmpeqb	%xmm2, %xmm1
	por	%xmm5, %xmm1
	pmovmskb	%xmm0, %eax
	pmovmskb	%xmm1, %r9d
.LBB4_37:
	shll	$16, %r9d
	orl	%eax, %r9d
	movl	%edx, %ecx
	subl	%esi, %ecx
	addb	$32, %cl
	shrq	%cl, %r9
	movq	%rsi, %rax
	movq	%rax, %r14
	testq	%r9, %r9
	jne	.LBB4_44
.LBB4_12:
	movq	%r14, %rdx
	cmpq	%rsi, %r14
	jb	.LBB4_2
	jmp	.LBB4_13
.LBB4_43:
	movl	%ecx, %r9d
	leaq	32(%rdx), %r14
	jmp	.LBB4_44
.LBB4_27:
	movb	%dl, -117(%rsp)
	movb	%r12b, -116(%rsp)
	movb	%sil, -115(%rsp)
	movb	%al, -114(%rsp)
	movb	%r8b, -113(%rsp)
	movb	%dil, -112(%rsp)
	movb	%r13b, -111(%rsp)
	movb	%r10b, -110(%rsp)
	movb	%r14b, -109(%rsp)
	movb	%r15b, -108(%rsp)
	movb	%bpl, -107(%rsp)
	movb	%bl, -106(%rsp)
	movb	%r11b, -105(%rsp)
	movb	%cl, -104(%rsp)
	movzbl	64(%rsp), %eax
	movl	%eax, 64(%rsp)
	movzbl	-85(%rsp), %eax
	movl	%eax, 192(%rsp)
	movzbl	68(%rsp), %eax
	movl	%eax, 68(%rsp)
	movzbl	72(%rsp), %eax
	movl	%eax, 72(%rsp)
	movzbl	76(%rsp), %eax
	movl	%eax, 76(%rsp)
	movzbl	80(%rsp), %eax
	movl	%eax, 80(%rsp)
	movzbl	84(%rsp), %eax
	movl	%eax, 84(%rsp)
	movzbl	88(%rsp), %eax
	movl	%eax, 88(%rsp)
	movzbl	92(%rsp), %eax
	movl	%eax, 92(%rsp)
	movzbl	96(%rsp), %eax
	movl	%eax, 96(%rsp)
	movzbl	100(%rsp), %eax
	movl	%eax, 100(%rsp)
	movzbl	104(%rsp), %eax
	movl	%eax, 104(%rsp)
	movzbl	116(%rsp), %eax
	movl	%eax, 116(%rsp)
	movzbl	124(%rsp), %eax
	movl	%eax, 124(%rsp)
	movzbl	132(%rsp), %eax
	movl	%eax, 132(%rsp)
	movzbl	140(%rsp), %eax
	movl	%eax, 140(%rsp)
	movzbl	108(%rsp), %eax
	movl	%eax, 108(%rsp)
	movzbl	112(%rsp), %eax
	movl	%eax, 112(%rsp)
	movzbl	120(%rsp), %eax
	movl	%eax, 120(%rsp)
	movzbl	128(%rsp), %eax
	movl	%eax, 128(%rsp)
	movzbl	136(%rsp), %eax
	movl	%eax, 136(%rsp)
	movzbl	144(%rsp), %eax
	movl	%eax, 144(%rsp)
	movzbl	148(%rsp), %eax
	movl	%eax, 148(%rsp)
	movzbl	152(%rsp), %eax
	movl	%eax, 152(%rsp)
	movzbl	156(%rsp), %eax
	movl	%eax, 156(%rsp)
	movzbl	160(%rsp), %eax
	movl	%eax, 160(%rsp)
	movzbl	164(%rsp), %eax
	movl	%eax, 164(%rsp)
	movzbl	168(%rsp), %eax
	movl	%eax, 168(%rsp)
	movzbl	172(%rsp), %eax
	movl	%eax, 172(%rsp)
	movzbl	176(%rsp), %eax
	movl	%eax, 176(%rsp)
	movzbl	-84(%rsp), %r12d
	movzbl	-83(%rsp), %r13d
	movzbl	-82(%rsp), %ebx
	movzbl	-81(%rsp), %ebp
	movzbl	-80(%rsp), %r10d
	movzbl	-79(%rsp), %r11d
	movzbl	-78(%rsp), %r8d
	movzbl	-77(%rsp), %r9d
	movzbl	-76(%rsp), %edx
	movzbl	-75(%rsp), %esi
	movzbl	-74(%rsp), %eax
	movzbl	-73(%rsp), %ecx
	movzbl	240(%rsp), %r14d
	movzbl	256(%rsp), %r15d
	movzbl	180(%rsp), %edi
	movl	%edi, 180(%rsp)
	movzbl	184(%rsp), %edi
	movl	%edi, 184(%rsp)
	movzbl	188(%rsp), %edi
	movl	%edi, 188(%rsp)
	movd	64(%rsp), %xmm8
	movd	192(%rsp), %xmm1
	movd	68(%rsp), %xmm3
	movd	72(%rsp), %xmm4
	movd	76(%rsp), %xmm5
	movd	80(%rsp), %xmm9
	movd	84(%rsp), %xmm7
	movd	88(%rsp), %xmm0
	movd	92(%rsp), %xmm2
	movd	96(%rsp), %xmm15
	movd	100(%rsp), %xmm11
	movd	104(%rsp), %xmm10
	movd	116(%rsp), %xmm12
	movss	124(%rsp), %xmm6
	movaps	%xmm6, 256(%rsp)
	movd	132(%rsp), %xmm14
	movss	140(%rsp), %xmm6
	movaps	%xmm6, 240(%rsp)
	punpcklbw	%xmm1, %xmm8
	movd	108(%rsp), %xmm6
	punpcklbw	%xmm4, %xmm3
	movss	112(%rsp), %xmm1
	movaps	%xmm1, 192(%rsp)
	punpcklwd	%xmm3, %xmm8
	movd	120(%rsp), %xmm13
	punpcklbw	%xmm9, %xmm5
	movd	128(%rsp), %xmm9
	punpcklbw	%xmm0, %xmm7
	movd	136(%rsp), %xmm3
	punpcklwd	%xmm7, %xmm5
	movd	144(%rsp), %xmm4
	punpckldq	%xmm5, %xmm8
	movd	148(%rsp), %xmm5
	punpcklbw	%xmm15, %xmm2
	movd	152(%rsp), %xmm1
	punpcklbw	%xmm10, %xmm11
	movd	156(%rsp), %xmm10
	punpcklwd	%xmm11, %xmm2
	movd	160(%rsp), %xmm11
	punpcklbw	256(%rsp), %xmm12
	movd	164(%rsp), %xmm0
	punpcklbw	240(%rsp), %xmm14
	movd	168(%rsp), %xmm7
	punpcklwd	%xmm14, %xmm12
	movd	172(%rsp), %xmm15
	punpckldq	%xmm12, %xmm2
	movd	176(%rsp), %xmm12
	punpcklqdq	%xmm2, %xmm8
	movd	%r12d, %xmm14
	punpcklbw	192(%rsp), %xmm6
	movd	%r13d, %xmm2
	movdqa	%xmm2, 240(%rsp)
	punpcklbw	%xmm9, %xmm13
	movd	%ebx, %xmm2
	punpcklwd	%xmm13, %xmm6
	movd	%ebp, %xmm13
	punpcklbw	%xmm4, %xmm3
	movd	%r10d, %xmm9
	punpcklbw	%xmm1, %xmm5
	movd	%r11d, %xmm1
	punpcklwd	%xmm5, %xmm3
	movd	%r8d, %xmm4
	punpckldq	%xmm3, %xmm6
	movd	%r9d, %xmm3
	movdqa	%xmm3, 192(%rsp)
	punpcklbw	%xmm11, %xmm10
	movd	%edx, %xmm5
	punpcklbw	%xmm7, %xmm0
	movd	%esi, %xmm3
	movdqa	%xmm3, 256(%rsp)
	punpcklwd	%xmm0, %xmm10
	movd	%eax, %xmm3
	movzbl	336(%rsp), %edx
	punpcklbw	%xmm12, %xmm15
	movd	%ecx, %xmm0
	movdqa	%xmm0, 336(%rsp)
	movzbl	-72(%rsp), %r8d
	movzbl	-71(%rsp), %edi
	punpcklbw	240(%rsp), %xmm14
	movd	%r14d, %xmm12
	movzbl	-70(%rsp), %ecx
	movzbl	352(%rsp), %esi
	punpcklwd	%xmm14, %xmm15
	movd	%r15d, %xmm0
	movdqa	%xmm0, 352(%rsp)
	movzbl	-69(%rsp), %r9d
	movzbl	-68(%rsp), %r10d
	punpckldq	%xmm15, %xmm10
	movd	180(%rsp), %xmm15
	movzbl	-67(%rsp), %r11d
	movzbl	368(%rsp), %ebx
	punpcklqdq	%xmm10, %xmm6
	movss	184(%rsp), %xmm0
	movaps	%xmm0, 368(%rsp)
	movzbl	-66(%rsp), %ebp
	movzbl	-65(%rsp), %r14d
	punpcklbw	%xmm13, %xmm2
	movd	188(%rsp), %xmm13
	movzbl	384(%rsp), %r15d
	movzbl	272(%rsp), %r12d
	punpcklbw	%xmm1, %xmm9
	movd	%edx, %xmm14
	movzbl	400(%rsp), %r13d
	movzbl	288(%rsp), %eax
	punpcklwd	%xmm9, %xmm2
	movd	%r8d, %xmm7
	movzbl	304(%rsp), %r8d
	movzbl	320(%rsp), %edx
	punpcklbw	192(%rsp), %xmm4
	movd	%edi, %xmm11
	punpcklbw	256(%rsp), %xmm5
	movd	%ecx, %xmm9
	punpcklwd	%xmm5, %xmm4
	movd	%esi, %xmm10
	punpckldq	%xmm4, %xmm2
	movd	%r9d, %xmm0
	punpcklbw	336(%rsp), %xmm3
	movd	%r10d, %xmm5
	punpcklbw	352(%rsp), %xmm12
	movd	%r11d, %xmm1
	punpcklwd	%xmm12, %xmm3
	movd	%ebx, %xmm12
	punpcklbw	368(%rsp), %xmm15
	movd	%ebp, %xmm4
	punpcklbw	%xmm14, %xmm13
	movd	%r14d, %xmm14
	punpcklwd	%xmm13, %xmm15
	movd	%r15d, %xmm13
	punpckldq	%xmm15, %xmm3
	movd	%r12d, %xmm15
	punpcklqdq	%xmm3, %xmm2
	psllw	$7, %xmm2
	movd	%r13d, %xmm3
	pmovmskb	%xmm2, %ecx
	movd	%eax, %xmm2
	punpcklbw	%xmm11, %xmm7
	movd	%r8d, %xmm11
	punpcklbw	%xmm10, %xmm9
	punpcklwd	%xmm9, %xmm7
	punpcklbw	%xmm5, %xmm0
	punpcklbw	%xmm12, %xmm1
	punpcklwd	%xmm1, %xmm0
	punpckldq	%xmm0, %xmm7
	punpcklbw	%xmm14, %xmm4
	punpcklbw	%xmm15, %xmm13
	punpcklwd	%xmm13, %xmm4
	psllw	$7, %xmm8
	psllw	$7, %xmm6
	punpcklbw	%xmm2, %xmm3
	movd	%edx, %xmm0
	punpcklbw	%xmm0, %xmm11
	punpcklwd	%xmm11, %xmm3
	punpckldq	%xmm3, %xmm4
	punpcklqdq	%xmm4, %xmm7
	psllw	$7, %xmm7
	pmovmskb	%xmm7, %eax
	shll	$16, %eax
	orl	%ecx, %eax
	pmovmskb	%xmm6, %ecx
	shlq	$32, %rcx
	orq	%rax, %rcx
	pmovmskb	%xmm8, %r9d
	shlq	$48, %r9
	orq	%rcx, %r9
	je	.LBB4_29
	movq	232(%rsp), %r14
	leaq	-64(%r14), %rdx
	movq	216(%rsp), %rsi
	movabsq	$4294976512, %r11
	movq	208(%rsp), %rbx
	movq	224(%rsp), %rdi
	jmp	.LBB4_44
.LBB4_29:
	movzbl	-117(%rsp), %r9d
	movzbl	-116(%rsp), %r10d
	movzbl	-115(%rsp), %r11d
	movzbl	-114(%rsp), %ebx
	movzbl	-113(%rsp), %ebp
	movzbl	-112(%rsp), %r14d
	movzbl	-111(%rsp), %r15d
	movzbl	-110(%rsp), %r12d
	movzbl	-109(%rsp), %eax
	movzbl	-108(%rsp), %r13d
	movzbl	-107(%rsp), %r8d
	movzbl	-106(%rsp), %esi
	movzbl	-105(%rsp), %edx
	movzbl	-104(%rsp), %ecx
	movl	%ecx, 192(%rsp)
	movzbl	-103(%rsp), %edi
	movzbl	-16(%rsp), %ecx
	movd	%ecx, %xmm12
	movzbl	-15(%rsp), %ecx
	movd	%ecx, %xmm1
	movzbl	-14(%rsp), %ecx
	movd	%ecx, %xmm4
	movzbl	-13(%rsp), %ecx
	movd	%ecx, %xmm5
	movzbl	-12(%rsp), %ecx
	movd	%ecx, %xmm6
	movzbl	-11(%rsp), %ecx
	movd	%ecx, %xmm0
	movzbl	-10(%rsp), %ecx
	movd	%ecx, %xmm7
	movzbl	-9(%rsp), %ecx
	movd	%ecx, %xmm10
	movzbl	-8(%rsp), %ecx
	movd	%ecx, %xmm2
	movzbl	-7(%rsp), %ecx
	movd	%ecx, %xmm13
	movzbl	-6(%rsp), %ecx
	movd	%ecx, %xmm9
	movzbl	-5(%rsp), %ecx
	movd	%ecx, %xmm15
	movzbl	-4(%rsp), %ecx
	movd	%ecx, %xmm3
	movzbl	-3(%rsp), %ecx
	movd	%ecx, %xmm8
	movdqa	%xmm8, 288(%rsp)
	movzbl	-2(%rsp), %ecx
	movd	%ecx, %xmm8
	movzbl	-1(%rsp), %ecx
	movd	%ecx, %xmm14
	punpcklbw	%xmm1, %xmm12
	movzbl	16(%rsp), %ecx
	movd	%ecx, %xmm11
	punpcklbw	%xmm5, %xmm4
	movzbl	17(%rsp), %ecx
	movd	%ecx, %xmm1
	movdqa	%xmm1, 320(%rsp)
	punpcklwd	%xmm4, %xmm12
	movzbl	18(%rsp), %ecx
	movd	%ecx, %xmm4
	punpcklbw	%xmm0, %xmm6
	movzbl	19(%rsp), %ecx
	movd	%ecx, %xmm0
	movdqa	%xmm0, 304(%rsp)
	punpcklbw	%xmm10, %xmm7
	movzbl	20(%rsp), %ecx
	movd	%ecx, %xmm5
	punpcklwd	%xmm7, %xmm6
	movzbl	21(%rsp), %ecx
	movd	%ecx, %xmm0
	movdqa	%xmm0, 272(%rsp)
	punpckldq	%xmm6, %xmm12
	movzbl	22(%rsp), %ecx
	movd	%ecx, %xmm6
	punpcklbw	%xmm13, %xmm2
	movzbl	23(%rsp), %ecx
	movd	%ecx, %xmm1
	punpcklbw	%xmm15, %xmm9
	movzbl	24(%rsp), %ecx
	movd	%ecx, %xmm10
	punpcklwd	%xmm9, %xmm2
	movzbl	25(%rsp), %ecx
	movd	%ecx, %xmm9
	punpcklbw	288(%rsp), %xmm3
	movzbl	26(%rsp), %ecx
	movd	%ecx, %xmm0
	punpcklbw	%xmm14, %xmm8
	movzbl	27(%rsp), %ecx
	movd	%ecx, %xmm7
	punpcklwd	%xmm8, %xmm3
	movzbl	28(%rsp), %ecx
	movd	%ecx, %xmm14
	punpckldq	%xmm3, %xmm2
	movzbl	29(%rsp), %ecx
	movd	%ecx, %xmm8
	punpcklqdq	%xmm2, %xmm12
	movzbl	30(%rsp), %ecx
	movd	%ecx, %xmm15
	punpcklbw	320(%rsp), %xmm11
	movzbl	31(%rsp), %ecx
	movd	%ecx, %xmm13
	punpcklbw	304(%rsp), %xmm4
	movd	%r9d, %xmm2
	punpcklwd	%xmm4, %xmm11
	movd	%r10d, %xmm3
	movdqa	%xmm3, 400(%rsp)
	punpcklbw	272(%rsp), %xmm5
	movd	%r11d, %xmm3
	movdqa	%xmm3, 304(%rsp)
	punpcklbw	%xmm1, %xmm6
	movd	%ebx, %xmm1
	movdqa	%xmm1, 288(%rsp)
	punpcklwd	%xmm6, %xmm5
	movd	%ebp, %xmm4
	punpckldq	%xmm5, %xmm11
	movd	%r14d, %xmm1
	punpcklbw	%xmm9, %xmm10
	movd	%r15d, %xmm5
	punpcklbw	%xmm7, %xmm0
	movd	%r12d, %xmm6
	punpcklwd	%xmm0, %xmm10
	movd	%eax, %xmm3
	movzbl	-102(%rsp), %r9d
	punpcklbw	%xmm8, %xmm14
	movd	%r13d, %xmm0
	movdqa	%xmm0, 320(%rsp)
	movzbl	-101(%rsp), %r11d
	movzbl	-100(%rsp), %eax
	movl	%eax, 272(%rsp)
	punpcklbw	%xmm13, %xmm15
	movd	%r8d, %xmm9
	movzbl	-99(%rsp), %r8d
	movzbl	-98(%rsp), %r10d
	punpcklwd	%xmm15, %xmm14
	movd	%esi, %xmm0
	movdqa	%xmm0, 384(%rsp)
	movzbl	-97(%rsp), %esi
	movzbl	-96(%rsp), %ebx
	punpckldq	%xmm14, %xmm10
	movd	%edx, %xmm14
	movzbl	-95(%rsp), %edx
	movzbl	-94(%rsp), %ebp
	punpcklqdq	%xmm10, %xmm11
	movss	192(%rsp), %xmm0
	movaps	%xmm0, 192(%rsp)
	movzbl	-93(%rsp), %ecx
	movzbl	-92(%rsp), %r14d
	punpcklbw	400(%rsp), %xmm2
	movd	%edi, %xmm13
	movzbl	-91(%rsp), %r15d
	movzbl	-90(%rsp), %r12d
	movdqa	304(%rsp), %xmm0
	punpcklbw	288(%rsp), %xmm0
	movd	%r9d, %xmm15
	movzbl	-89(%rsp), %r13d
	movzbl	-88(%rsp), %eax
	punpcklwd	%xmm0, %xmm2
	movd	%r11d, %xmm7
	movzbl	-87(%rsp), %r11d
	movzbl	-86(%rsp), %r9d
	punpcklbw	%xmm1, %xmm4
	movd	272(%rsp), %xmm10
	punpcklbw	%xmm6, %xmm5
	movd	%r8d, %xmm6
	punpcklwd	%xmm5, %xmm4
	movd	%r10d, %xmm8
	punpckldq	%xmm4, %xmm2
	movd	%esi, %xmm0
	punpcklbw	320(%rsp), %xmm3
	movd	%ebx, %xmm5
	punpcklbw	384(%rsp), %xmm9
	movd	%edx, %xmm1
	punpcklwd	%xmm9, %xmm3
	movd	%ebp, %xmm9
	punpcklbw	192(%rsp), %xmm14
	movd	%ecx, %xmm4
	punpcklbw	%xmm15, %xmm13
	movd	%r14d, %xmm15
	punpcklwd	%xmm13, %xmm14
	movd	%r15d, %xmm13
	punpckldq	%xmm14, %xmm3
	movd	%r12d, %xmm14
	punpcklqdq	%xmm3, %xmm2
	psllw	$7, %xmm2
	movd	%r13d, %xmm3
	pmovmskb	%xmm2, %ecx
	movd	%eax, %xmm2
	punpcklbw	%xmm10, %xmm7
	movd	%r11d, %xmm10
	punpcklbw	%xmm8, %xmm6
	punpcklwd	%xmm6, %xmm7
	punpcklbw	%xmm5, %xmm0
	punpcklbw	%xmm9, %xmm1
	punpcklwd	%xmm1, %xmm0
	punpckldq	%xmm0, %xmm7
	punpcklbw	%xmm15, %xmm4
	punpcklbw	%xmm14, %xmm13
	punpcklwd	%xmm13, %xmm4
	psllw	$7, %xmm12
	psllw	$7, %xmm11
	punpcklbw	%xmm2, %xmm3
	movd	%r9d, %xmm0
	punpcklbw	%xmm0, %xmm10
	punpcklwd	%xmm10, %xmm3
	punpckldq	%xmm3, %xmm4
	punpcklqdq	%xmm4, %xmm7
	psllw	$7, %xmm7
	pmovmskb	%xmm7, %eax
	shll	$16, %eax
	orl	%ecx, %eax
	pmovmskb	%xmm11, %ecx
	shlq	$32, %rcx
	orq	%rax, %rcx
	pmovmskb	%xmm12, %r9d
	shlq	$48, %r9
	orq	%rcx, %r9
	movq	232(%rsp), %rdx
	leaq	64(%rdx), %rax
	movq	216(%rsp), %rsi
	movabsq	$4294976512, %r11
	movq	208(%rsp), %rbx
	movq	224(%rsp), %rdi
	movq	%rax, %r14
	testq	%r9, %r9
	jne	.LBB4_44
	jmp	.LBB4_12
.LBB4_47:
	leaq	64(%rdx), %r14
	jmp	.LBB4_44
	.p2align	4
.LBB4_46:
	movq	$-2, %rax
	rolq	%cl, %rax
	andq	%rax, %r9
	je	.LBB4_12
.LBB4_44:
	rep		bsfq	%r9, %rcx
	leaq	(%rcx,%rdx), %rax
	movzbl	(%rdi,%rax), %r8d
	cmpq	$32, %r8
	ja	.LBB4_46
	btq	%r8, %r11
	jae	.LBB4_46
.LBB4_14:
	addq	$424, %rsp
	popq	%rbx
	popq	%r12
	popq	%r13
	popq	%r14
	popq	%r15
	popq	%rbp
	retq
.LBB4_10:
	movq	%rsi, %rax
	retq
.LBB4_13:
	movq	%rsi, %rax
	jmp	.LBB4_14
.Lfunc_end4:
	.size	"unftp_control_codecs::line_parser::parser::word_len", .Lfunc_end4-"unftp_control_codecs::line_parser::parser::word_len"

	.section	".text.unftp_control_defs::verb::verb_of","ax",@progbits
	.p2align	4
	.type	"unftp_control_defs::verb::verb_of",@function
"unftp_control_defs::verb::verb_of":
	bswapl	%edi
	xorl	%edx, %edx
	cmpl	$1346458453, %edi
	jg	.LBB5_39
	cmpl	$1178943827, %edi
	jle	.LBB5_2
	cmpl	$1296847699, %edi
	jg	.LBB5_30
	cmpl	$1296323660, %edi
	jg	.LBB5_26
	cmpl	$1178943828, %edi
	je	.LBB5_82
	cmpl	$1212501072, %edi
	je	.LBB5_83
	movl	$0, %eax
	cmpl	$1279873876, %edi
	jne	.LBB5_103
	movb	$1, %al
	movb	$16, %dl
	retq
.LBB5_39:
	cmpl	$1397314628, %edi
	jle	.LBB5_40
	cmpl	$1398362963, %edi
	jg	.LBB5_67
	cmpl	$1398034257, %edi
	jg	.LBB5_63
	cmpl	$1397314629, %edi
	je	.LBB5_96
	cmpl	$1397316165, %edi
	je	.LBB5_97
	movl	$0, %eax
	cmpl	$1398030676, %edi
	jne	.LBB5_103
	movb	$1, %al
	movb	$4, %dl
	retq
.LBB5_2:
	cmpl	$1113146623, %edi
	jle	.LBB5_3
	cmpl	$1129792511, %edi
	jg	.LBB5_16
	cmpl	$1113146624, %edi
	je	.LBB5_78
	cmpl	$1128481536, %edi
	je	.LBB5_79
	movl	$0, %eax
	cmpl	$1128551760, %edi
	jne	.LBB5_103
	movb	$1, %al
	movb	$23, %dl
	retq
.LBB5_40:
	cmpl	$1364543827, %edi
	jle	.LBB5_41
	cmpl	$1380795391, %edi
	jg	.LBB5_53
	cmpl	$1364543828, %edi
	je	.LBB5_78
	cmpl	$1380275028, %edi
	je	.LBB5_93
	movl	$0, %eax
	cmpl	$1380275282, %edi
	jne	.LBB5_103
	movb	$1, %al
	movb	$13, %dl
	retq
.LBB5_30:
	cmpl	$1313820495, %edi
	jg	.LBB5_35
	cmpl	$1296847700, %edi
	je	.LBB5_86
	cmpl	$1297040453, %edi
	je	.LBB5_87
	movl	$0, %eax
	cmpl	$1313624916, %edi
	jne	.LBB5_103
	movb	$1, %al
	movb	$17, %dl
	retq
.LBB5_67:
	cmpl	$1480808259, %edi
	jg	.LBB5_72
	cmpl	$1398362964, %edi
	je	.LBB5_100
	cmpl	$1415139397, %edi
	je	.LBB5_101
	movl	$0, %eax
	cmpl	$1431520594, %edi
	jne	.LBB5_103
	movb	$1, %al
	xorl	%edx, %edx
	retq
.LBB5_3:
	cmpl	$1095519310, %edi
	jle	.LBB5_4
	cmpl	$1095519311, %edi
	je	.LBB5_76
	cmpl	$1095782469, %edi
	je	.LBB5_77
	movl	$0, %eax
	cmpl	$1096111176, %edi
	jne	.LBB5_103
	movb	$1, %al
	movb	$34, %dl
	retq
.LBB5_41:
	cmpl	$1347375699, %edi
	jle	.LBB5_42
	cmpl	$1347375700, %edi
	je	.LBB5_91
	cmpl	$1347571540, %edi
	je	.LBB5_92
	movl	$0, %eax
	cmpl	$1347896320, %edi
	je	.LBB5_75
	jmp	.LBB5_103
.LBB5_16:
	cmpl	$1129792512, %edi
	je	.LBB5_80
	cmpl	$1145392197, %edi
	je	.LBB5_81
	movl	$0, %eax
	cmpl	$1162892118, %edi
	jne	.LBB5_103
	movb	$1, %al
	movb	$11, %dl
	retq
.LBB5_53:
	cmpl	$1380795392, %edi
	je	.LBB5_94
	cmpl	$1380861522, %edi
	je	.LBB5_95
	movl	$0, %eax
	cmpl	$1380865103, %edi
	jne	.LBB5_103
	movb	$1, %al
	movb	$33, %dl
	retq
.LBB5_26:
	cmpl	$1296323661, %edi
	je	.LBB5_84
	cmpl	$1296778240, %edi
	je	.LBB5_85
	movl	$0, %eax
	cmpl	$1296847684, %edi
	jne	.LBB5_103
	movb	$1, %al
	movb	$19, %dl
	retq
.LBB5_63:
	cmpl	$1398034258, %edi
	je	.LBB5_98
	cmpl	$1398034261, %edi
	je	.LBB5_99
	movl	$0, %eax
	cmpl	$1398035029, %edi
	jne	.LBB5_103
	movb	$1, %al
	movb	$6, %dl
	retq
.LBB5_35:
	cmpl	$1313820496, %edi
	je	.LBB5_88
	cmpl	$1330664531, %edi
	je	.LBB5_89
	movl	$0, %eax
	cmpl	$1346458451, %edi
	jne	.LBB5_103
	movb	$1, %dl
	movb	$1, %al
	retq
.LBB5_72:
	cmpl	$1480808260, %edi
	je	.LBB5_80
	cmpl	$1481460548, %edi
	je	.LBB5_85
	movl	$0, %eax
	cmpl	$1481660228, %edi
	jne	.LBB5_103
.LBB5_75:
	movb	$1, %al
	movb	$21, %dl
	retq
.LBB5_4:
	cmpl	$1094864722, %edi
	je	.LBB5_102
	movl	$0, %eax
	cmpl	$1094927188, %edi
	jne	.LBB5_103
	movb	$1, %al
	movb	$2, %dl
	retq
.LBB5_42:
	cmpl	$1346458454, %edi
	je	.LBB5_90
	movl	$0, %eax
	cmpl	$1346523994, %edi
	jne	.LBB5_103
	movb	$1, %al
	movb	$36, %dl
	retq
.LBB5_78:
	movb	$1, %al
	movb	$27, %dl
	retq
.LBB5_80:
	movb	$1, %al
	movb	$22, %dl
	retq
.LBB5_85:
	movb	$1, %al
	movb	$28, %dl
	retq
.LBB5_94:
	movb	$1, %al
	movb	$26, %dl
	retq
.LBB5_102:
	movb	$1, %al
	movb	$30, %dl
.LBB5_103:
	retq
.LBB5_90:
	movb	$1, %al
	movb	$10, %dl
	retq
.LBB5_76:
	movb	$1, %al
	movb	$29, %dl
	retq
.LBB5_91:
	movb	$1, %al
	movb	$12, %dl
	retq
.LBB5_79:
	movb	$1, %al
	movb	$35, %dl
	retq
.LBB5_93:
	movb	$1, %al
	movb	$39, %dl
	retq
.LBB5_81:
	movb	$1, %al
	movb	$25, %dl
	retq
.LBB5_95:
	movb	$1, %al
	movb	$32, %dl
	retq
.LBB5_77:
	movb	$1, %al
	movb	$15, %dl
	retq
.LBB5_92:
	movb	$1, %al
	movb	$37, %dl
	retq
.LBB5_82:
	movb	$1, %al
	movb	$20, %dl
	retq
.LBB5_96:
	movb	$1, %al
	movb	$42, %dl
	retq
.LBB5_86:
	movb	$1, %al
	movb	$18, %dl
	retq
.LBB5_100:
	movb	$1, %al
	movb	$3, %dl
	retq
.LBB5_84:
	movb	$1, %al
	movb	$40, %dl
	retq
.LBB5_98:
	movb	$1, %al
	movb	$14, %dl
	retq
.LBB5_88:
	movb	$1, %al
	movb	$9, %dl
	retq
.LBB5_83:
	movb	$1, %al
	movb	$8, %dl
	retq
.LBB5_97:
	movb	$1, %al
	movb	$38, %dl
	retq
.LBB5_87:
	movb	$1, %al
	movb	$7, %dl
	retq
.LBB5_101:
	movb	$1, %al
	movb	$5, %dl
	retq
.LBB5_99:
	movb	$1, %al
	movb	$31, %dl
	retq
.LBB5_89:
	movb	$1, %al
	movb	$24, %dl
	retq
.Lfunc_end5:
	.size	"unftp_control_defs::verb::verb_of", .Lfunc_end5-"unftp_control_defs::verb::verb_of"

	.section	".text.core::str::utf8::from_utf8","ax",@progbits
	.p2align	4
	.type	"core::str::utf8::from_utf8",@function
"core::str::utf8::from_utf8":
	pushq	%r15
	pushq	%r14
	pushq	%r13
	pushq	%r12
	pushq	%rbx
	subq	$16, %rsp
	movq	%rdx, %r15
	movq	%rsi, %r14
	movq	%rdi, %rbx
	testq	%rdx, %rdx
	je	.LBB6_57
	movabsq	$-9187201950435737472, %r12
	leaq	-8(%r15), %r13
	xorl	%ecx, %ecx
	jmp	.LBB6_5
.LBB6_25:
	movl	$1, %edi
.LBB6_3:
	addq	%rcx, %rdi
.LBB6_4:
	movq	%rdi, %rcx
	cmpq	%r15, %rdi
	jae	.LBB6_57
.LBB6_5:
	movzbl	(%r14,%rcx), %esi
	testb	%sil, %sil
	sets	%dl
	movq	%r15, %rax
	subq	%rcx, %rax
	cmpq	$2, %rax
	setb	%dil
	orb	%dl, %dil
	jne	.LBB6_2
	cmpb	$0, 1(%r14,%rcx)
	js	.LBB6_25
	movq	%r14, (%rsp)
	movq	%r15, 8(%rsp)
	cmpq	$7, %rax
	ja	.LBB6_26
	cmpb	$0, (%r14,%rcx)
	js	.LBB6_36
	leaq	1(%rcx), %rdi
	cmpq	%r15, %rdi
	je	.LBB6_57
	cmpb	$0, (%r14,%rdi)
	js	.LBB6_4
	leaq	2(%rcx), %rdi
	cmpq	%r15, %rdi
	je	.LBB6_57
	cmpb	$0, (%r14,%rdi)
	js	.LBB6_4
	leaq	3(%rcx), %rdi
	cmpq	%r15, %rdi
	je	.LBB6_57
	cmpb	$0, (%r14,%rdi)
	js	.LBB6_4
	leaq	4(%rcx), %rdi
	cmpq	%r15, %rdi
	je	.LBB6_57
	cmpb	$0, (%r14,%rdi)
	js	.LBB6_4
	leaq	5(%rcx), %rdi
	cmpq	%r15, %rdi
	je	.LBB6_57
	cmpb	$0, (%r14,%rdi)
	js	.LBB6_4
	addq	$6, %rcx
	cmpq	%r15, %rcx
	je	.LBB6_57
	cmpb	$0, (%r14,%rcx)
	movq	%rcx, %rdi
	js	.LBB6_4
	jmp	.LBB6_57
	.p2align	4
.LBB6_2:
	movl	$1, %edi
	testb	%sil, %sil
	jns	.LBB6_3
	movl	$257, %edx
	cmpb	$-62, %sil
	jb	.LBB6_66
	cmpb	$-33, %sil
	ja	.LBB6_29
	cmpq	$2, %rax
	jb	.LBB6_58
	movzbl	1(%r14,%rcx), %r8d
	movl	$2, %edi
	cmpb	$-65, %r8b
	jle	.LBB6_3
	jmp	.LBB6_60
.LBB6_26:
	movq	(%r14,%rcx), %rax
	andq	%r12, %rax
	je	.LBB6_37
	rep		bsfq	%rax, %rax
	shrl	$3, %eax
	addq	%rcx, %rax
	addq	$8, %rcx
	movq	%rax, %rdi
	cmpq	%rcx, %rax
	jb	.LBB6_4
	movq	%r15, %rcx
	subq	%rax, %rcx
	cmpq	$32, %rcx
	jae	.LBB6_38
	jmp	.LBB6_40
.LBB6_29:
	cmpb	$-17, %sil
	ja	.LBB6_48
	cmpq	$3, %rax
	jb	.LBB6_55
	movzbl	1(%r14,%rcx), %r8d
	cmpb	$-65, %r8b
	jg	.LBB6_60
	cmpb	$-65, 2(%r14,%rcx)
	jg	.LBB6_60
	movzbl	%r8b, %edi
	movl	%esi, %r9d
	shll	$6, %r9d
	addl	%edi, %r9d
	addl	$-14464, %r9d
	cmpl	$32, %r9d
	jb	.LBB6_60
	xorl	%r8d, %r8d
	cmpl	$896, %r9d
	setae	%r10b
	movl	$3, %edi
	cmpl	$864, %r9d
	jb	.LBB6_3
	movb	%r10b, %r8b
	leaq	(%r8,%r8,2), %rdi
	testq	%rdi, %rdi
	jne	.LBB6_3
	jmp	.LBB6_54
.LBB6_36:
	movq	%rcx, %rdi
	jmp	.LBB6_4
.LBB6_37:
	addq	$8, %rcx
	movq	%rcx, %rax
	movq	%r15, %rcx
	subq	%rax, %rcx
	cmpq	$32, %rcx
	jb	.LBB6_40
	.p2align	4
.LBB6_38:
	movdqu	(%r14,%rax), %xmm0
	movdqu	16(%r14,%rax), %xmm1
	por	%xmm0, %xmm1
	pshufd	$238, %xmm1, %xmm0
	por	%xmm1, %xmm0
	movq	%xmm0, %rcx
	testq	%r12, %rcx
	jne	.LBB6_40
	addq	$32, %rax
	movq	%rsp, %rdi
	movq	%rax, %rsi
	movq	%r15, %rdx
	callq	"core::slice::words::skip_far::<#52f9edcae2f82f51>"
	movq	%r15, %rcx
	subq	%rax, %rcx
	cmpq	$31, %rcx
	ja	.LBB6_38
.LBB6_40:
	movq	%r15, %rcx
	subq	%rax, %rcx
	jmp	.LBB6_43
	.p2align	4
.LBB6_41:
	rep		bsfq	%rdx, %rdi
	shrl	$3, %edi
	addq	%rax, %rdi
	addq	$8, %rax
	addq	$-8, %rcx
	cmpq	%rax, %rdi
	jb	.LBB6_4
.LBB6_43:
	cmpq	$9, %rcx
	jb	.LBB6_46
	movq	(%r14,%rax), %rdx
	andq	%r12, %rdx
	jne	.LBB6_41
	leaq	8(%rax), %rdi
	addq	$8, %rax
	addq	$-8, %rcx
	cmpq	%rax, %rdi
	jae	.LBB6_43
	jmp	.LBB6_4
.LBB6_46:
	movq	(%r14,%r13), %rax
	andq	%r12, %rax
	je	.LBB6_57
	rep		bsfq	%rax, %rdi
	shrl	$3, %edi
	addq	%r13, %rdi
	jmp	.LBB6_4
.LBB6_48:
	cmpq	$4, %rax
	jb	.LBB6_54
	movzbl	1(%r14,%rcx), %edi
	cmpb	$-65, %dil
	jg	.LBB6_54
	cmpb	$-65, 2(%r14,%rcx)
	jg	.LBB6_54
	cmpb	$-65, 3(%r14,%rcx)
	jg	.LBB6_54
	movl	%esi, %r8d
	shll	$6, %r8d
	leal	(%r8,%rdi), %r9d
	addl	$-15488, %r9d
	xorl	%edi, %edi
	cmpl	$272, %r9d
	setb	%r8b
	cmpl	$16, %r9d
	jb	.LBB6_54
	movb	%r8b, %dil
	shll	$2, %edi
	testq	%rdi, %rdi
	jne	.LBB6_3
.LBB6_54:
	cmpb	$-12, %sil
	ja	.LBB6_66
.LBB6_55:
	cmpq	$2, %rax
	jb	.LBB6_58
	movzbl	1(%r14,%rcx), %r8d
.LBB6_60:
	cmpl	$240, %esi
	sete	%dil
	shlb	$4, %dil
	orb	$-128, %dil
	cmpl	$224, %esi
	movzbl	%dil, %edi
	movl	$160, %r9d
	cmovnel	%edi, %r9d
	cmpl	$244, %esi
	movl	$143, %edi
	movl	$191, %r10d
	cmovel	%edi, %r10d
	cmpl	$237, %esi
	movl	$159, %esi
	cmovnel	%r10d, %esi
	cmpb	%r8b, %r9b
	ja	.LBB6_66
	cmpb	%sil, %r8b
	ja	.LBB6_66
	cmpq	$2, %rax
	jne	.LBB6_64
.LBB6_58:
	xorl	%edx, %edx
.LBB6_66:
	movq	$1, (%rbx)
	movq	%rcx, 8(%rbx)
	movq	%rdx, 16(%rbx)
	jmp	.LBB6_67
.LBB6_57:
	movq	$0, (%rbx)
	movq	%r14, 8(%rbx)
	movq	%r15, 16(%rbx)
.LBB6_67:
	addq	$16, %rsp
	popq	%rbx
	popq	%r12
	popq	%r13
	popq	%r14
	popq	%r15
	retq
.LBB6_64:
	movl	$513, %edx
	cmpb	$-65, 2(%r14,%rcx)
	jg	.LBB6_66
	xorl	%esi, %esi
	cmpq	$4, %rax
	movl	$769, %edx
	cmovbq	%rsi, %rdx
	jmp	.LBB6_66
.Lfunc_end6:
	.size	"core::str::utf8::from_utf8", .Lfunc_end6-"core::str::utf8::from_utf8"

	.section	".text.core::slice::words::skip_far::<#52f9edcae2f82f51>","ax",@progbits
	.p2align	4
	.type	"core::slice::words::skip_far::<#52f9edcae2f82f51>",@function
"core::slice::words::skip_far::<#52f9edcae2f82f51>":
	movq	%rsi, %rax
	subq	%rsi, %rdx
	cmpq	$64, %rdx
	jb	.LBB7_4
	movq	(%rdi), %rcx
	.p2align	4
.LBB7_2:
	movdqu	(%rcx,%rax), %xmm0
	movdqu	16(%rcx,%rax), %xmm1
	movdqu	32(%rcx,%rax), %xmm2
	por	%xmm0, %xmm2
	movdqu	48(%rcx,%rax), %xmm0
	por	%xmm1, %xmm0
	por	%xmm2, %xmm0
	pshufd	$238, %xmm0, %xmm1
	por	%xmm0, %xmm1
	movq	%xmm1, %rsi
	movabsq	$-9187201950435737472, %rdi
	testq	%rdi, %rsi
	jne	.LBB7_4
	addq	$64, %rax
	addq	$-64, %rdx
	cmpq	$63, %rdx
	ja	.LBB7_2
.LBB7_4:
	retq
.Lfunc_end7:
	.size	"core::slice::words::skip_far::<#52f9edcae2f82f51>", .Lfunc_end7-"core::slice::words::skip_far::<#52f9edcae2f82f51>"

	.section	".text.unftp_control_codecs::line_parser::value::some_value","ax",@progbits
	.p2align	4
	.type	"unftp_control_codecs::line_parser::value::some_value",@function
"unftp_control_codecs::line_parser::value::some_value":
	pushq	%r15
	pushq	%r14
	pushq	%rbx
	subq	$32, %rsp
	movq	%rdx, %r15
	movq	%rsi, %r14
	movq	%rdi, %rbx
	xorps	%xmm0, %xmm0
	movaps	%xmm0, 16(%rsp)
	movaps	%xmm0, (%rsp)
	leaq	1(%rsi), %rdi
	leaq	-1(%rdx), %rsi
	cmpq	$1, %rsi
	jne	.LBB8_4
	cmpb	$10, (%rdi)
	jne	.LBB8_5
	movq	%r14, 16(%rsp)
	movq	$1, 24(%rsp)
	jmp	.LBB8_3
.LBB8_4:
	cmpq	$2, %r15
	jb	.LBB8_9
.LBB8_5:
	cmpb	$13, (%r14)
	jne	.LBB8_9
	cmpb	$0, (%rdi)
	je	.LBB8_7
.LBB8_9:
	callq	"unftp_control_codecs::line_parser::value::fresh_len"
	leaq	1(%rax), %rcx
	movq	%r15, %rdx
	subq	%rcx, %rdx
	je	.LBB8_12
	cmpq	$1, %rdx
	jne	.LBB8_14
	cmpb	$10, (%r14,%rcx)
	je	.LBB8_18
	jmp	.LBB8_12
.LBB8_14:
	movzbl	(%r14,%rcx), %edx
	cmpl	$10, %edx
	je	.LBB8_18
	cmpl	$13, %edx
	jne	.LBB8_12
	movzbl	1(%r14,%rcx), %edx
	testl	%edx, %edx
	je	.LBB8_19
	cmpl	$10, %edx
	jne	.LBB8_12
.LBB8_18:
	movq	%r14, 16(%rsp)
	movq	%rcx, 24(%rsp)
.LBB8_3:
	movq	$1, (%rbx)
	movq	$0, 8(%rbx)
	movq	16(%rsp), %rax
	movq	%rax, 16(%rbx)
	movq	24(%rsp), %rax
	movq	%rax, 24(%rbx)
	jmp	.LBB8_13
.LBB8_12:
	xorps	%xmm0, %xmm0
	movups	%xmm0, 16(%rbx)
	movups	%xmm0, (%rbx)
	jmp	.LBB8_13
.LBB8_7:
	movq	%rsp, %rdi
	movl	$2, %ecx
	movq	%r14, %rsi
	movq	%r15, %rdx
	jmp	.LBB8_8
.LBB8_19:
	addq	$3, %rax
	movq	%rsp, %rdi
	movq	%r14, %rsi
	movq	%r15, %rdx
	movq	%rax, %rcx
.LBB8_8:
	callq	"unftp_control_codecs::line_parser::value::escaped_value"
	movzbl	(%rsp), %eax
	movq	%rax, (%rbx)
	movzbl	8(%rsp), %eax
	movq	%rax, 8(%rbx)
	movaps	16(%rsp), %xmm0
	movups	%xmm0, 16(%rbx)
.LBB8_13:
	addq	$32, %rsp
	popq	%rbx
	popq	%r14
	popq	%r15
	retq
.Lfunc_end8:
	.size	"unftp_control_codecs::line_parser::value::some_value", .Lfunc_end8-"unftp_control_codecs::line_parser::value::some_value"

	.section	".text.core::cmp::slices::groups_equal::<i8,31'core::cmp::numbers::U8PartialEq{}>","ax",@progbits
	.p2align	4
	.type	"core::cmp::slices::groups_equal::<i8,31'core::cmp::numbers::U8PartialEq{}>",@function
"core::cmp::slices::groups_equal::<i8,31'core::cmp::numbers::U8PartialEq{}>":
	cmpq	$8, %rsi
	ja	.LBB9_2
	movd	-4(%rdi,%rsi), %xmm0
	movd	(%rdi), %xmm1
	punpckldq	%xmm0, %xmm1
	movd	-4(%rdx,%rsi), %xmm0
	movd	(%rdx), %xmm2
	punpckldq	%xmm0, %xmm2
	movq	%xmm1, %rax
	movq	%xmm2, %rcx
	cmpq	%rcx, %rax
	jmp	.LBB9_17
.LBB9_2:
	cmpq	$32, %rsi
	ja	.LBB9_4
	leaq	-8(%rsi), %rax
	cmpq	$8, %rax
	movl	$8, %ecx
	cmovbq	%rax, %rcx
	cmpq	$16, %rax
	movl	$16, %r8d
	cmovbq	%rax, %r8
	movq	(%rdi,%rcx), %xmm0
	movq	(%rdi), %xmm1
	punpcklqdq	%xmm0, %xmm1
	movq	(%rdi,%r8), %xmm0
	movq	-8(%rdi,%rsi), %xmm2
	punpcklqdq	%xmm2, %xmm0
	movq	(%rdx,%rcx), %xmm2
	movq	(%rdx), %xmm3
	punpcklqdq	%xmm2, %xmm3
	pcmpeqb	%xmm1, %xmm3
	movq	(%rdx,%r8), %xmm1
	movq	-8(%rdx,%rsi), %xmm2
	punpcklqdq	%xmm2, %xmm1
	pcmpeqb	%xmm0, %xmm1
	pand	%xmm3, %xmm1
	pmovmskb	%xmm1, %eax
	jmp	.LBB9_16
.LBB9_4:
	cmpq	$65, %rsi
	jae	.LBB9_5
	movdqu	(%rdi), %xmm0
	movdqu	16(%rdi), %xmm1
	movdqu	(%rdx), %xmm2
	pcmpeqb	%xmm0, %xmm2
	movdqu	16(%rdx), %xmm0
	pcmpeqb	%xmm1, %xmm0
	movdqu	-32(%rdi,%rsi), %xmm1
	movdqu	-16(%rdi,%rsi), %xmm3
	movdqu	-32(%rdx,%rsi), %xmm4
	pcmpeqb	%xmm1, %xmm4
	pand	%xmm2, %xmm4
	movdqu	-16(%rdx,%rsi), %xmm1
	pcmpeqb	%xmm3, %xmm1
	pand	%xmm0, %xmm1
	pand	%xmm4, %xmm1
	pmovmskb	%xmm1, %eax
	jmp	.LBB9_16
.LBB9_5:
	xorl	%eax, %eax
	movq	%rsi, %rcx
	.p2align	4
.LBB9_6:
	movdqu	(%rdi,%rax), %xmm0
	movdqu	16(%rdi,%rax), %xmm1
	movdqu	32(%rdi,%rax), %xmm2
	movdqu	48(%rdi,%rax), %xmm3
	movdqu	(%rdx,%rax), %xmm4
	pcmpeqb	%xmm0, %xmm4
	movdqu	16(%rdx,%rax), %xmm0
	pcmpeqb	%xmm1, %xmm0
	movdqu	32(%rdx,%rax), %xmm1
	pcmpeqb	%xmm2, %xmm1
	pand	%xmm4, %xmm1
	movdqu	48(%rdx,%rax), %xmm2
	pcmpeqb	%xmm3, %xmm2
	pand	%xmm0, %xmm2
	pand	%xmm1, %xmm2
	pmovmskb	%xmm2, %r8d
	cmpl	$65535, %r8d
	jne	.LBB9_8
	addq	$64, %rax
	addq	$-64, %rcx
	cmpq	$63, %rcx
	ja	.LBB9_6
.LBB9_8:
	cmpq	$32, %rcx
	jb	.LBB9_15
	movq	%rsi, %rcx
	subq	%rax, %rcx
	.p2align	4
.LBB9_10:
	movdqu	(%rdi,%rax), %xmm0
	movdqu	16(%rdi,%rax), %xmm1
	movdqu	(%rdx,%rax), %xmm2
	pcmpeqb	%xmm0, %xmm2
	movdqu	16(%rdx,%rax), %xmm0
	pcmpeqb	%xmm1, %xmm0
	pand	%xmm2, %xmm0
	pmovmskb	%xmm0, %r8d
	xorl	$65535, %r8d
	jne	.LBB9_14
	addq	$32, %rax
	addq	$-32, %rcx
	cmpq	$32, %rcx
	jae	.LBB9_10
	jmp	.LBB9_15
.LBB9_14:
	movb	$1, %al
	cmpq	$31, %rcx
	ja	.LBB9_18
.LBB9_15:
	movdqu	-32(%rdi,%rsi), %xmm0
	movdqu	-16(%rdi,%rsi), %xmm1
	movdqu	-32(%rdx,%rsi), %xmm2
	pcmpeqb	%xmm0, %xmm2
	movdqu	-16(%rdx,%rsi), %xmm0
	pcmpeqb	%xmm1, %xmm0
	pand	%xmm2, %xmm0
	pmovmskb	%xmm0, %eax
.LBB9_16:
	xorl	$65535, %eax
.LBB9_17:
	setne	%al
.LBB9_18:
	xorb	$1, %al
	retq
.Lfunc_end9:
	.size	"core::cmp::slices::groups_equal::<i8,31'core::cmp::numbers::U8PartialEq{}>", .Lfunc_end9-"core::cmp::slices::groups_equal::<i8,31'core::cmp::numbers::U8PartialEq{}>"

	.section	.rodata.cst16,"aM",@progbits,16
	.p2align	4, 0x0
.LCPI10_0:
	.zero	16,13
.LCPI10_1:
	.zero	16,10
	.section	".text.unftp_control_codecs::line_parser::value::fresh_len","ax",@progbits
	.p2align	4
	.type	"unftp_control_codecs::line_parser::value::fresh_len",@function
"unftp_control_codecs::line_parser::value::fresh_len":
	testq	%rsi, %rsi
	je	.LBB10_2
	cmpb	$13, (%rdi)
	jne	.LBB10_4
.LBB10_2:
	xorl	%eax, %eax
	retq
.LBB10_4:
	leaq	-1(%rsi), %r9
	cmpq	$33, %rsi
	jae	.LBB10_5
	xorl	%eax, %eax
	testq	%r9, %r9
	je	.LBB10_11
	.p2align	4
.LBB10_12:
	movzbl	1(%rdi,%rax), %ecx
	cmpl	$10, %ecx
	je	.LBB10_11
	cmpl	$13, %ecx
	je	.LBB10_11
	incq	%rax
	cmpq	%rax, %r9
	jne	.LBB10_12
	movq	%r9, %rax
	incq	%rax
	retq
.LBB10_5:
	pushq	%rbp
	pushq	%r15
	pushq	%r14
	pushq	%r13
	pushq	%r12
	pushq	%rbx
	subq	$440, %rsp
	leaq	-65(%rsi), %rbx
	leaq	-1(%rsi), %r14
	leaq	161(%rdi), %r15
	xorl	%r11d, %r11d
.LBB10_6:
	movq	%r9, %rax
	subq	%r11, %rax
	cmpq	$191, %rax
	jbe	.LBB10_7
	movdqa	.LCPI10_0(%rip), %xmm0
	movdqu	1(%rdi,%r11), %xmm4
	movdqu	17(%rdi,%r11), %xmm5
	movdqu	33(%rdi,%r11), %xmm3
	movdqu	49(%rdi,%r11), %xmm2
	movdqa	%xmm4, %xmm6
	pcmpeqb	%xmm0, %xmm6
	movdqa	%xmm5, %xmm7
	pcmpeqb	%xmm0, %xmm7
	movdqa	.LCPI10_1(%rip), %xmm1
	pcmpeqb	%xmm1, %xmm4
	por	%xmm6, %xmm4
	pcmpeqb	%xmm1, %xmm5
	por	%xmm7, %xmm5
	movdqa	%xmm3, %xmm6
	pcmpeqb	%xmm0, %xmm6
	movdqa	%xmm2, %xmm7
	pcmpeqb	%xmm0, %xmm7
	pcmpeqb	%xmm1, %xmm3
	por	%xmm6, %xmm3
	pcmpeqb	%xmm1, %xmm2
	por	%xmm7, %xmm2
	pmovmskb	%xmm4, %eax
	pmovmskb	%xmm5, %ecx
	shll	$16, %ecx
	orl	%eax, %ecx
	pmovmskb	%xmm3, %eax
	shlq	$32, %rax
	orq	%rcx, %rax
	pmovmskb	%xmm2, %edx
	shlq	$48, %rdx
	leaq	64(%r11), %r10
	orq	%rax, %rdx
	jne	.LBB10_48
	movq	%r9, %rax
	subq	%r10, %rax
	movq	%rax, 192(%rsp)
	cmpq	$128, %rax
	jb	.LBB10_21
	movq	%r10, 376(%rsp)
	movq	%rdi, 224(%rsp)
	movq	%r14, 232(%rsp)
	movq	%rbx, 240(%rsp)
	movq	%rsi, 248(%rsp)
	movq	%r11, 432(%rsp)
	leaq	(%r15,%r11), %rdx
	xorl	%ecx, %ecx
	.p2align	4
.LBB10_29:
	movq	%rcx, 256(%rsp)
	movdqu	-96(%rdx), %xmm3
	movdqu	-80(%rdx), %xmm2
	movdqu	-64(%rdx), %xmm4
	movdqu	-48(%rdx), %xmm5
	movdqa	%xmm3, %xmm6
	pcmpeqb	%xmm0, %xmm6
	movdqa	%xmm2, %xmm7
	pcmpeqb	%xmm0, %xmm7
	pcmpeqb	%xmm1, %xmm3
	por	%xmm6, %xmm3
	pcmpeqb	%xmm1, %xmm2
	por	%xmm7, %xmm2
	movdqa	%xmm2, -48(%rsp)
	movdqa	%xmm3, 48(%rsp)
	movzbl	-33(%rsp), %eax
	movb	%al, 352(%rsp)
	movzbl	-34(%rsp), %eax
	movb	%al, 336(%rsp)
	movzbl	-35(%rsp), %eax
	movb	%al, 320(%rsp)
	movzbl	-36(%rsp), %eax
	movb	%al, 304(%rsp)
	movzbl	-37(%rsp), %eax
	movb	%al, 288(%rsp)
	movzbl	-38(%rsp), %eax
	movb	%al, 188(%rsp)
	movzbl	-39(%rsp), %eax
	movb	%al, -65(%rsp)
	movzbl	-40(%rsp), %eax
	movb	%al, -66(%rsp)
	movzbl	-41(%rsp), %eax
	movb	%al, 416(%rsp)
	movzbl	-42(%rsp), %eax
	movb	%al, -67(%rsp)
	movzbl	-43(%rsp), %eax
	movb	%al, -68(%rsp)
	movzbl	-44(%rsp), %eax
	movb	%al, -69(%rsp)
	movzbl	-45(%rsp), %eax
	movb	%al, 400(%rsp)
	movzbl	-46(%rsp), %eax
	movb	%al, -70(%rsp)
	movzbl	-48(%rsp), %eax
	movb	%al, -72(%rsp)
	movzbl	-47(%rsp), %eax
	movb	%al, -71(%rsp)
	movzbl	63(%rsp), %eax
	movb	%al, 384(%rsp)
	movdqa	%xmm4, %xmm6
	pcmpeqb	%xmm0, %xmm6
	movdqa	%xmm5, %xmm7
	pcmpeqb	%xmm0, %xmm7
	pcmpeqb	%xmm1, %xmm4
	por	%xmm6, %xmm4
	pcmpeqb	%xmm1, %xmm5
	por	%xmm7, %xmm5
	movzbl	62(%rsp), %eax
	movb	%al, 184(%rsp)
	movzbl	61(%rsp), %eax
	movb	%al, 180(%rsp)
	movzbl	60(%rsp), %eax
	movb	%al, 176(%rsp)
	movzbl	59(%rsp), %eax
	movb	%al, 272(%rsp)
	movzbl	58(%rsp), %eax
	movb	%al, -73(%rsp)
	movzbl	57(%rsp), %eax
	movb	%al, -74(%rsp)
	movzbl	56(%rsp), %eax
	movb	%al, -75(%rsp)
	movzbl	55(%rsp), %eax
	movb	%al, -76(%rsp)
	movzbl	54(%rsp), %eax
	movb	%al, -77(%rsp)
	movzbl	53(%rsp), %eax
	movb	%al, -78(%rsp)
	movzbl	52(%rsp), %eax
	movb	%al, -79(%rsp)
	movzbl	51(%rsp), %eax
	movb	%al, -80(%rsp)
	movzbl	50(%rsp), %eax
	movb	%al, -81(%rsp)
	movzbl	48(%rsp), %eax
	movb	%al, -83(%rsp)
	movzbl	49(%rsp), %eax
	movb	%al, -82(%rsp)
	movdqa	%xmm5, -32(%rsp)
	movdqa	%xmm4, 32(%rsp)
	movdqu	-16(%rdx), %xmm6
	movdqu	-32(%rdx), %xmm7
	movdqa	%xmm7, %xmm8
	pcmpeqb	%xmm0, %xmm8
	movdqa	%xmm6, %xmm9
	pcmpeqb	%xmm0, %xmm9
	pcmpeqb	%xmm1, %xmm7
	por	%xmm8, %xmm7
	pcmpeqb	%xmm1, %xmm6
	por	%xmm9, %xmm6
	movzbl	-17(%rsp), %eax
	movb	%al, 132(%rsp)
	movzbl	-18(%rsp), %eax
	movb	%al, 124(%rsp)
	movzbl	-19(%rsp), %eax
	movb	%al, 116(%rsp)
	movzbl	-20(%rsp), %eax
	movb	%al, 108(%rsp)
	movzbl	-21(%rsp), %eax
	movb	%al, 96(%rsp)
	movzbl	-22(%rsp), %eax
	movb	%al, 92(%rsp)
	movzbl	-23(%rsp), %eax
	movb	%al, 88(%rsp)
	movzbl	-24(%rsp), %eax
	movb	%al, 84(%rsp)
	movzbl	-25(%rsp), %eax
	movb	%al, 80(%rsp)
	movzbl	-26(%rsp), %eax
	movb	%al, 76(%rsp)
	movzbl	-27(%rsp), %eax
	movb	%al, 72(%rsp)
	movzbl	-28(%rsp), %eax
	movb	%al, 68(%rsp)
	movzbl	-29(%rsp), %eax
	movb	%al, -85(%rsp)
	movzbl	-30(%rsp), %eax
	movb	%al, -86(%rsp)
	movzbl	-32(%rsp), %eax
	movb	%al, 64(%rsp)
	movzbl	-31(%rsp), %eax
	movb	%al, -87(%rsp)
	movzbl	47(%rsp), %eax
	movb	%al, 172(%rsp)
	movzbl	46(%rsp), %eax
	movb	%al, -84(%rsp)
	movzbl	45(%rsp), %eax
	movb	%al, 168(%rsp)
	movzbl	44(%rsp), %eax
	movb	%al, 164(%rsp)
	movzbl	43(%rsp), %eax
	movb	%al, 160(%rsp)
	movzbl	42(%rsp), %eax
	movb	%al, 156(%rsp)
	movzbl	41(%rsp), %eax
	movb	%al, 152(%rsp)
	movzbl	40(%rsp), %eax
	movb	%al, 148(%rsp)
	movzbl	39(%rsp), %eax
	movb	%al, 144(%rsp)
	movzbl	38(%rsp), %eax
	movb	%al, 140(%rsp)
	movzbl	37(%rsp), %eax
	movb	%al, 136(%rsp)
	movzbl	36(%rsp), %eax
	movb	%al, 128(%rsp)
	movzbl	35(%rsp), %eax
	movb	%al, 120(%rsp)
	movzbl	34(%rsp), %eax
	movb	%al, 112(%rsp)
	movzbl	32(%rsp), %eax
	movb	%al, 100(%rsp)
	movzbl	33(%rsp), %eax
	movb	%al, 104(%rsp)
	movdqa	%xmm6, -16(%rsp)
	movdqa	%xmm7, 16(%rsp)
	movdqu	16(%rdx), %xmm8
	movq	%rdx, 208(%rsp)
	movdqu	(%rdx), %xmm9
	movdqa	%xmm9, %xmm10
	pcmpeqb	%xmm0, %xmm10
	movdqa	%xmm8, %xmm11
	pcmpeqb	%xmm0, %xmm11
	pcmpeqb	%xmm1, %xmm9
	por	%xmm10, %xmm9
	pcmpeqb	%xmm1, %xmm8
	por	%xmm11, %xmm8
	movzbl	-1(%rsp), %eax
	movb	%al, -88(%rsp)
	movzbl	-2(%rsp), %eax
	movb	%al, -89(%rsp)
	movzbl	-3(%rsp), %eax
	movb	%al, -90(%rsp)
	movzbl	-4(%rsp), %eax
	movb	%al, -91(%rsp)
	movzbl	-5(%rsp), %eax
	movb	%al, -92(%rsp)
	movzbl	-6(%rsp), %eax
	movb	%al, -93(%rsp)
	movzbl	-7(%rsp), %eax
	movb	%al, -94(%rsp)
	movzbl	-8(%rsp), %eax
	movb	%al, -95(%rsp)
	movzbl	-9(%rsp), %eax
	movb	%al, -96(%rsp)
	movzbl	-10(%rsp), %eax
	movb	%al, -97(%rsp)
	movzbl	-11(%rsp), %eax
	movb	%al, -98(%rsp)
	movzbl	-12(%rsp), %eax
	movb	%al, -99(%rsp)
	movzbl	-13(%rsp), %eax
	movb	%al, -100(%rsp)
	movzbl	-14(%rsp), %eax
	movb	%al, -101(%rsp)
	movzbl	-16(%rsp), %eax
	movb	%al, -103(%rsp)
	movzbl	-15(%rsp), %eax
	movb	%al, -102(%rsp)
	movzbl	31(%rsp), %eax
	movb	%al, -104(%rsp)
	movzbl	30(%rsp), %eax
	movb	%al, -105(%rsp)
	movzbl	29(%rsp), %r10d
	movzbl	28(%rsp), %edx
	movzbl	27(%rsp), %r9d
	movzbl	26(%rsp), %eax
	movzbl	25(%rsp), %ecx
	movzbl	24(%rsp), %r13d
	movzbl	23(%rsp), %ebp
	movzbl	22(%rsp), %edi
	movzbl	21(%rsp), %r11d
	movzbl	20(%rsp), %r14d
	movzbl	19(%rsp), %esi
	movzbl	18(%rsp), %r15d
	movzbl	16(%rsp), %r8d
	movzbl	17(%rsp), %r12d
	movdqa	%xmm8, (%rsp)
	movdqa	%xmm9, -64(%rsp)
	por	%xmm7, %xmm9
	por	%xmm6, %xmm8
	por	%xmm5, %xmm8
	por	%xmm4, %xmm9
	por	%xmm3, %xmm9
	por	%xmm2, %xmm8
	por	%xmm9, %xmm8
	pmovmskb	%xmm8, %ebx
	testl	%ebx, %ebx
	jne	.LBB10_31
	movq	256(%rsp), %rcx
	movq	192(%rsp), %rax
	addq	%rcx, %rax
	addq	$-128, %rax
	addq	$-128, %rcx
	movq	208(%rsp), %rdx
	subq	$-128, %rdx
	cmpq	$127, %rax
	ja	.LBB10_29
	movq	376(%rsp), %r11
	subq	%rcx, %r11
	addq	%rcx, 192(%rsp)
	movq	248(%rsp), %rsi
	leaq	-1(%rsi), %r9
	movq	240(%rsp), %rbx
	movq	232(%rsp), %r14
	movq	224(%rsp), %rdi
	leaq	161(%rdi), %r15
	jmp	.LBB10_23
.LBB10_7:
	cmpq	$64, %rax
	jb	.LBB10_36
	.p2align	4
.LBB10_8:
	movdqu	1(%rdi,%r11), %xmm4
	movdqu	17(%rdi,%r11), %xmm5
	movdqu	33(%rdi,%r11), %xmm3
	movdqu	49(%rdi,%r11), %xmm2
	movdqa	.LCPI10_0(%rip), %xmm0
	movdqa	%xmm4, %xmm6
	pcmpeqb	%xmm0, %xmm6
	movdqa	%xmm5, %xmm7
	pcmpeqb	%xmm0, %xmm7
	movdqa	.LCPI10_1(%rip), %xmm1
	movdqa	%xmm4, %xmm8
	pcmpeqb	%xmm1, %xmm8
	por	%xmm6, %xmm8
	movdqa	%xmm5, %xmm6
	pcmpeqb	%xmm1, %xmm6
	por	%xmm7, %xmm6
	movdqa	%xmm3, %xmm7
	pcmpeqb	%xmm0, %xmm7
	movdqa	%xmm2, %xmm9
	pcmpeqb	%xmm0, %xmm9
	movdqa	%xmm3, %xmm10
	pcmpeqb	%xmm1, %xmm10
	por	%xmm7, %xmm10
	por	%xmm8, %xmm10
	movdqa	%xmm2, %xmm7
	pcmpeqb	%xmm1, %xmm7
	por	%xmm9, %xmm7
	por	%xmm6, %xmm7
	por	%xmm10, %xmm7
	pmovmskb	%xmm7, %ecx
	testl	%ecx, %ecx
	jne	.LBB10_42
	addq	$64, %r11
	addq	$-64, %rax
	cmpq	$63, %rax
	ja	.LBB10_8
	jmp	.LBB10_36
.LBB10_42:
	cmpq	$64, %rax
	jb	.LBB10_36
.LBB10_43:
	movdqa	%xmm4, %xmm6
	pcmpeqb	%xmm0, %xmm6
	movdqa	%xmm5, %xmm7
	pcmpeqb	%xmm0, %xmm7
	pcmpeqb	%xmm1, %xmm4
	por	%xmm6, %xmm4
	pcmpeqb	%xmm1, %xmm5
	por	%xmm7, %xmm5
	movdqa	%xmm3, %xmm6
	pcmpeqb	%xmm0, %xmm6
	movdqa	%xmm2, %xmm7
	pcmpeqb	%xmm0, %xmm7
	pcmpeqb	%xmm1, %xmm3
	por	%xmm6, %xmm3
	pcmpeqb	%xmm1, %xmm2
	por	%xmm7, %xmm2
	pmovmskb	%xmm4, %eax
	pmovmskb	%xmm5, %ecx
	shll	$16, %ecx
	orl	%eax, %ecx
	pmovmskb	%xmm3, %eax
	shlq	$32, %rax
	orq	%rcx, %rax
	pmovmskb	%xmm2, %edx
	shlq	$48, %rdx
	orq	%rax, %rdx
	jne	.LBB10_51
	movq	%rbx, %rax
	subq	%r11, %rax
	.p2align	4
.LBB10_45:
	cmpq	$64, %rax
	jb	.LBB10_35
	movdqu	65(%rdi,%r11), %xmm4
	movdqu	81(%rdi,%r11), %xmm5
	movdqu	97(%rdi,%r11), %xmm3
	movdqu	113(%rdi,%r11), %xmm2
	movdqa	%xmm4, %xmm6
	pcmpeqb	%xmm0, %xmm6
	movdqa	%xmm5, %xmm7
	pcmpeqb	%xmm0, %xmm7
	movdqa	%xmm4, %xmm8
	pcmpeqb	%xmm1, %xmm8
	por	%xmm6, %xmm8
	movdqa	%xmm5, %xmm6
	pcmpeqb	%xmm1, %xmm6
	por	%xmm7, %xmm6
	movdqa	%xmm3, %xmm7
	pcmpeqb	%xmm0, %xmm7
	movdqa	%xmm2, %xmm9
	pcmpeqb	%xmm0, %xmm9
	movdqa	%xmm3, %xmm10
	pcmpeqb	%xmm1, %xmm10
	por	%xmm7, %xmm10
	por	%xmm8, %xmm10
	movdqa	%xmm2, %xmm7
	pcmpeqb	%xmm1, %xmm7
	por	%xmm9, %xmm7
	por	%xmm6, %xmm7
	por	%xmm10, %xmm7
	pmovmskb	%xmm7, %ecx
	addq	$-64, %rax
	addq	$64, %r11
	testl	%ecx, %ecx
	je	.LBB10_45
	jmp	.LBB10_43
.LBB10_21:
	movq	%r10, %r11
.LBB10_23:
	cmpq	$32, 192(%rsp)
	jb	.LBB10_27
	movq	%r14, %rax
	subq	%r11, %rax
	.p2align	4
.LBB10_25:
	movdqu	1(%rdi,%r11), %xmm2
	movdqu	17(%rdi,%r11), %xmm3
	movdqa	%xmm2, %xmm4
	pcmpeqb	%xmm0, %xmm4
	movdqa	%xmm3, %xmm5
	pcmpeqb	%xmm0, %xmm5
	pcmpeqb	%xmm1, %xmm2
	por	%xmm4, %xmm2
	pcmpeqb	%xmm1, %xmm3
	por	%xmm5, %xmm3
	pmovmskb	%xmm2, %edx
	pmovmskb	%xmm3, %ecx
	shll	$16, %ecx
	orl	%edx, %ecx
	jne	.LBB10_47
	addq	$-32, %rax
	addq	$32, %r11
	cmpq	$31, %rax
	ja	.LBB10_25
.LBB10_27:
	movdqu	-32(%rdi,%rsi), %xmm2
	movdqu	-16(%rdi,%rsi), %xmm3
	movdqa	%xmm2, %xmm4
	pcmpeqb	%xmm0, %xmm4
	pcmpeqb	%xmm3, %xmm0
	pcmpeqb	%xmm1, %xmm2
	por	%xmm4, %xmm2
	pcmpeqb	%xmm1, %xmm3
	por	%xmm0, %xmm3
	pmovmskb	%xmm2, %eax
	pmovmskb	%xmm3, %edx
	jmp	.LBB10_41
.LBB10_35:
	addq	$64, %r11
.LBB10_36:
	cmpq	$32, %rax
	jb	.LBB10_40
	movq	%r14, %rax
	subq	%r11, %rax
	.p2align	4
.LBB10_38:
	movdqu	1(%rdi,%r11), %xmm0
	movdqu	17(%rdi,%r11), %xmm1
	movdqa	.LCPI10_0(%rip), %xmm2
	movdqa	%xmm0, %xmm3
	pcmpeqb	%xmm2, %xmm3
	pcmpeqb	%xmm1, %xmm2
	movdqa	.LCPI10_1(%rip), %xmm4
	pcmpeqb	%xmm4, %xmm0
	por	%xmm3, %xmm0
	pcmpeqb	%xmm4, %xmm1
	por	%xmm2, %xmm1
	pmovmskb	%xmm0, %edx
	pmovmskb	%xmm1, %ecx
	shll	$16, %ecx
	orl	%edx, %ecx
	jne	.LBB10_47
	addq	$-32, %rax
	addq	$32, %r11
	cmpq	$31, %rax
	ja	.LBB10_38
.LBB10_40:
	movdqu	-32(%rdi,%rsi), %xmm0
	movdqu	-16(%rdi,%rsi), %xmm1
	movdqa	.LCPI10_0(%rip), %xmm2
	movdqa	%xmm0, %xmm3
	pcmpeqb	%xmm2, %xmm3
	pcmpeqb	%xmm1, %xmm2
	movdqa	.LCPI10_1(%rip), %xmm4
	pcmpeqb	%xmm4, %xmm0
	por	%xmm3, %xmm0
	pcmpeqb	%xmm4, %xmm1
	por	%xmm2, %xmm1
	pmovmskb	%xmm0, %eax
	pmovmskb	%xmm1, %edx
.LBB10_41:
	shll	$16, %edx
	orl	%eax, %edx
	movl	%r11d, %ecx
	subl	%esi, %ecx
	addb	$33, %cl
	shrq	%cl, %rdx
	movq	%r11, %r10
	movq	%r9, %rax
.LBB10_34:
	movq	%r10, %r11
	movq	%rax, %r10
	testq	%rdx, %rdx
	jne	.LBB10_48
	jmp	.LBB10_16
.LBB10_47:
	movl	%ecx, %edx
	leaq	32(%r11), %r10
	.p2align	4
.LBB10_48:
	rep		bsfq	%rdx, %rcx
	leaq	(%rcx,%r11), %rax
	movzbl	1(%rdi,%rax), %r8d
	cmpl	$10, %r8d
	je	.LBB10_18
	cmpl	$13, %r8d
	je	.LBB10_18
	movq	$-2, %rax
	rolq	%cl, %rax
	andq	%rax, %rdx
	jne	.LBB10_48
.LBB10_16:
	movq	%r10, %r11
	cmpq	%r9, %r10
	jb	.LBB10_6
	jmp	.LBB10_17
.LBB10_31:
	movb	%r8b, -119(%rsp)
	movb	%r12b, -118(%rsp)
	movb	%r15b, -117(%rsp)
	movb	%sil, -116(%rsp)
	movb	%r14b, -115(%rsp)
	movb	%r11b, -114(%rsp)
	movb	%dil, -113(%rsp)
	movb	%bpl, -112(%rsp)
	movb	%r13b, -111(%rsp)
	movb	%cl, -110(%rsp)
	movb	%al, -109(%rsp)
	movb	%r9b, -108(%rsp)
	movb	%dl, -107(%rsp)
	movb	%r10b, -106(%rsp)
	movzbl	64(%rsp), %eax
	movl	%eax, 64(%rsp)
	movzbl	-87(%rsp), %r11d
	movzbl	-86(%rsp), %eax
	movl	%eax, 208(%rsp)
	movzbl	-85(%rsp), %eax
	movl	%eax, 192(%rsp)
	movzbl	68(%rsp), %eax
	movl	%eax, 68(%rsp)
	movzbl	72(%rsp), %eax
	movl	%eax, 72(%rsp)
	movzbl	76(%rsp), %eax
	movl	%eax, 76(%rsp)
	movzbl	80(%rsp), %eax
	movl	%eax, 80(%rsp)
	movzbl	84(%rsp), %eax
	movl	%eax, 84(%rsp)
	movzbl	88(%rsp), %eax
	movl	%eax, 88(%rsp)
	movzbl	92(%rsp), %eax
	movl	%eax, 92(%rsp)
	movzbl	96(%rsp), %eax
	movl	%eax, 96(%rsp)
	movzbl	108(%rsp), %eax
	movl	%eax, 108(%rsp)
	movzbl	116(%rsp), %eax
	movl	%eax, 116(%rsp)
	movzbl	124(%rsp), %eax
	movl	%eax, 124(%rsp)
	movzbl	132(%rsp), %eax
	movl	%eax, 132(%rsp)
	movzbl	100(%rsp), %eax
	movl	%eax, 100(%rsp)
	movzbl	104(%rsp), %eax
	movl	%eax, 104(%rsp)
	movzbl	112(%rsp), %eax
	movl	%eax, 112(%rsp)
	movzbl	120(%rsp), %eax
	movl	%eax, 120(%rsp)
	movzbl	128(%rsp), %eax
	movl	%eax, 128(%rsp)
	movzbl	136(%rsp), %eax
	movl	%eax, 136(%rsp)
	movzbl	140(%rsp), %eax
	movl	%eax, 140(%rsp)
	movzbl	144(%rsp), %eax
	movl	%eax, 144(%rsp)
	movzbl	148(%rsp), %eax
	movl	%eax, 148(%rsp)
	movzbl	152(%rsp), %eax
	movl	%eax, 152(%rsp)
	movzbl	156(%rsp), %eax
	movl	%eax, 156(%rsp)
	movzbl	160(%rsp), %eax
	movl	%eax, 160(%rsp)
	movzbl	164(%rsp), %eax
	movl	%eax, 164(%rsp)
	movzbl	168(%rsp), %eax
	movl	%eax, 168(%rsp)
	movzbl	-84(%rsp), %r13d
	movzbl	172(%rsp), %eax
	movl	%eax, 172(%rsp)
	movzbl	-83(%rsp), %ebp
	movzbl	-82(%rsp), %r14d
	movzbl	-81(%rsp), %r10d
	movzbl	-80(%rsp), %ebx
	movzbl	-79(%rsp), %r8d
	movzbl	-78(%rsp), %r9d
	movzbl	-77(%rsp), %edx
	movzbl	-76(%rsp), %esi
	movzbl	-75(%rsp), %eax
	movzbl	-74(%rsp), %ecx
	movzbl	-73(%rsp), %r15d
	movzbl	272(%rsp), %r12d
	movzbl	176(%rsp), %edi
	movl	%edi, 176(%rsp)
	movzbl	180(%rsp), %edi
	movl	%edi, 180(%rsp)
	movzbl	184(%rsp), %edi
	movl	%edi, 184(%rsp)
	movd	64(%rsp), %xmm8
	movd	%r11d, %xmm1
	movd	208(%rsp), %xmm3
	movd	192(%rsp), %xmm4
	movd	68(%rsp), %xmm5
	movd	72(%rsp), %xmm9
	movd	76(%rsp), %xmm7
	movd	80(%rsp), %xmm0
	movd	84(%rsp), %xmm2
	movd	88(%rsp), %xmm15
	movd	92(%rsp), %xmm11
	movd	96(%rsp), %xmm10
	movd	108(%rsp), %xmm12
	movss	116(%rsp), %xmm6
	movaps	%xmm6, 192(%rsp)
	movd	124(%rsp), %xmm14
	movss	132(%rsp), %xmm6
	movaps	%xmm6, 272(%rsp)
	punpcklbw	%xmm1, %xmm8
	movd	100(%rsp), %xmm6
	punpcklbw	%xmm4, %xmm3
	movss	104(%rsp), %xmm1
	movaps	%xmm1, 208(%rsp)
	punpcklwd	%xmm3, %xmm8
	movd	112(%rsp), %xmm13
	punpcklbw	%xmm9, %xmm5
	movd	120(%rsp), %xmm9
	punpcklbw	%xmm0, %xmm7
	movd	128(%rsp), %xmm3
	punpcklwd	%xmm7, %xmm5
	movd	136(%rsp), %xmm4
	punpckldq	%xmm5, %xmm8
	movd	140(%rsp), %xmm5
	punpcklbw	%xmm15, %xmm2
	movd	144(%rsp), %xmm1
	punpcklbw	%xmm10, %xmm11
	movd	148(%rsp), %xmm10
	punpcklwd	%xmm11, %xmm2
	movd	152(%rsp), %xmm11
	punpcklbw	192(%rsp), %xmm12
	movd	156(%rsp), %xmm0
	punpcklbw	272(%rsp), %xmm14
	movd	160(%rsp), %xmm7
	punpcklwd	%xmm14, %xmm12
	movd	164(%rsp), %xmm15
	punpckldq	%xmm12, %xmm2
	movd	168(%rsp), %xmm12
	punpcklqdq	%xmm2, %xmm8
	movd	%r13d, %xmm14
	punpcklbw	208(%rsp), %xmm6
	movss	172(%rsp), %xmm2
	movaps	%xmm2, 272(%rsp)
	punpcklbw	%xmm9, %xmm13
	movd	%ebp, %xmm2
	punpcklwd	%xmm13, %xmm6
	movd	%r14d, %xmm13
	punpcklbw	%xmm4, %xmm3
	movd	%r10d, %xmm9
	punpcklbw	%xmm1, %xmm5
	movd	%ebx, %xmm1
	punpcklwd	%xmm5, %xmm3
	movd	%r8d, %xmm4
	punpckldq	%xmm3, %xmm6
	movd	%r9d, %xmm3
	movdqa	%xmm3, 208(%rsp)
	punpcklbw	%xmm11, %xmm10
	movd	%edx, %xmm5
	punpcklbw	%xmm7, %xmm0
	movd	%esi, %xmm3
	movdqa	%xmm3, 192(%rsp)
	punpcklwd	%xmm0, %xmm10
	movd	%eax, %xmm3
	movzbl	384(%rsp), %edx
	punpcklbw	%xmm12, %xmm15
	movd	%ecx, %xmm0
	movdqa	%xmm0, 384(%rsp)
	movzbl	-72(%rsp), %r8d
	movzbl	-71(%rsp), %edi
	punpcklbw	272(%rsp), %xmm14
	movd	%r15d, %xmm12
	movzbl	-70(%rsp), %r11d
	movzbl	400(%rsp), %esi
	punpcklwd	%xmm14, %xmm15
	movd	%r12d, %xmm0
	movdqa	%xmm0, 400(%rsp)
	movzbl	-69(%rsp), %r9d
	movzbl	-68(%rsp), %r10d
	punpckldq	%xmm15, %xmm10
	movd	176(%rsp), %xmm15
	movzbl	-67(%rsp), %ebx
	movzbl	416(%rsp), %ebp
	punpcklqdq	%xmm10, %xmm6
	movss	180(%rsp), %xmm0
	movaps	%xmm0, 416(%rsp)
	movzbl	-66(%rsp), %r14d
	movzbl	-65(%rsp), %r15d
	punpcklbw	%xmm13, %xmm2
	movd	184(%rsp), %xmm13
	movzbl	188(%rsp), %r12d
	movzbl	288(%rsp), %r13d
	punpcklbw	%xmm1, %xmm9
	movd	%edx, %xmm14
	movzbl	304(%rsp), %eax
	movzbl	320(%rsp), %ecx
	punpcklwd	%xmm9, %xmm2
	movd	%r8d, %xmm7
	movzbl	336(%rsp), %r8d
	movzbl	352(%rsp), %edx
	punpcklbw	208(%rsp), %xmm4
	movd	%edi, %xmm11
	punpcklbw	192(%rsp), %xmm5
	movd	%r11d, %xmm9
	punpcklwd	%xmm5, %xmm4
	movd	%esi, %xmm10
	punpckldq	%xmm4, %xmm2
	movd	%r9d, %xmm0
	punpcklbw	384(%rsp), %xmm3
	movd	%r10d, %xmm5
	punpcklbw	400(%rsp), %xmm12
	movd	%ebx, %xmm1
	punpcklwd	%xmm12, %xmm3
	movd	%ebp, %xmm12
	punpcklbw	416(%rsp), %xmm15
	movd	%r14d, %xmm4
	punpcklbw	%xmm14, %xmm13
	movd	%r15d, %xmm14
	punpcklwd	%xmm13, %xmm15
	movd	%r12d, %xmm13
	punpckldq	%xmm15, %xmm3
	movd	%r13d, %xmm15
	punpcklqdq	%xmm3, %xmm2
	psllw	$7, %xmm2
	movd	%eax, %xmm3
	pmovmskb	%xmm2, %eax
	movd	%ecx, %xmm2
	punpcklbw	%xmm11, %xmm7
	movd	%r8d, %xmm11
	punpcklbw	%xmm10, %xmm9
	punpcklwd	%xmm9, %xmm7
	punpcklbw	%xmm5, %xmm0
	punpcklbw	%xmm12, %xmm1
	punpcklwd	%xmm1, %xmm0
	punpckldq	%xmm0, %xmm7
	punpcklbw	%xmm14, %xmm4
	punpcklbw	%xmm15, %xmm13
	punpcklwd	%xmm13, %xmm4
	psllw	$7, %xmm8
	psllw	$7, %xmm6
	punpcklbw	%xmm2, %xmm3
	movd	%edx, %xmm0
	punpcklbw	%xmm0, %xmm11
	punpcklwd	%xmm11, %xmm3
	punpckldq	%xmm3, %xmm4
	punpcklqdq	%xmm4, %xmm7
	psllw	$7, %xmm7
	pmovmskb	%xmm7, %ecx
	shll	$16, %ecx
	orl	%eax, %ecx
	pmovmskb	%xmm6, %eax
	shlq	$32, %rax
	orq	%rcx, %rax
	pmovmskb	%xmm8, %edx
	shlq	$48, %rdx
	movq	256(%rsp), %rcx
	movq	432(%rsp), %rdi
	subq	%rcx, %rdi
	orq	%rax, %rdx
	leaq	128(%rdi), %r10
	je	.LBB10_33
	movq	376(%rsp), %r11
	subq	%rcx, %r11
	movq	248(%rsp), %rsi
	leaq	-1(%rsi), %r9
	movq	240(%rsp), %rbx
	movq	232(%rsp), %r14
	movq	224(%rsp), %rdi
	leaq	161(%rdi), %r15
	jmp	.LBB10_48
.LBB10_33:
	movzbl	-119(%rsp), %r9d
	movzbl	-118(%rsp), %esi
	movzbl	-117(%rsp), %ebx
	movzbl	-116(%rsp), %ebp
	movzbl	-115(%rsp), %r14d
	movzbl	-114(%rsp), %r15d
	movzbl	-113(%rsp), %r12d
	movzbl	-112(%rsp), %r13d
	movzbl	-111(%rsp), %eax
	movzbl	-110(%rsp), %ecx
	movzbl	-109(%rsp), %edx
	movzbl	-108(%rsp), %r8d
	movl	%r8d, 192(%rsp)
	movzbl	-107(%rsp), %r8d
	movl	%r8d, 208(%rsp)
	movzbl	-106(%rsp), %r8d
	movl	%r8d, 256(%rsp)
	movzbl	-105(%rsp), %r11d
	movzbl	(%rsp), %r8d
	movd	%r8d, %xmm7
	movzbl	1(%rsp), %r8d
	movd	%r8d, %xmm1
	movzbl	2(%rsp), %r8d
	movd	%r8d, %xmm4
	movzbl	3(%rsp), %r8d
	movd	%r8d, %xmm5
	movzbl	4(%rsp), %r8d
	movd	%r8d, %xmm6
	movzbl	5(%rsp), %r8d
	movd	%r8d, %xmm10
	movzbl	6(%rsp), %r8d
	movd	%r8d, %xmm11
	movzbl	7(%rsp), %r8d
	movd	%r8d, %xmm14
	movzbl	8(%rsp), %r8d
	movd	%r8d, %xmm2
	movzbl	9(%rsp), %r8d
	movd	%r8d, %xmm13
	movzbl	10(%rsp), %r8d
	movd	%r8d, %xmm9
	movzbl	11(%rsp), %r8d
	movd	%r8d, %xmm12
	movzbl	12(%rsp), %r8d
	movd	%r8d, %xmm3
	movzbl	13(%rsp), %r8d
	movd	%r8d, %xmm0
	movdqa	%xmm0, 320(%rsp)
	movzbl	14(%rsp), %r8d
	movd	%r8d, %xmm8
	movzbl	15(%rsp), %r8d
	movd	%r8d, %xmm0
	movdqa	%xmm0, 304(%rsp)
	punpcklbw	%xmm1, %xmm7
	movzbl	-64(%rsp), %r8d
	movd	%r8d, %xmm1
	punpcklbw	%xmm5, %xmm4
	movzbl	-63(%rsp), %r8d
	movd	%r8d, %xmm0
	movdqa	%xmm0, 352(%rsp)
	punpcklwd	%xmm4, %xmm7
	movzbl	-62(%rsp), %r8d
	movd	%r8d, %xmm4
	punpcklbw	%xmm10, %xmm6
	movzbl	-61(%rsp), %r8d
	movd	%r8d, %xmm0
	movdqa	%xmm0, 336(%rsp)
	punpcklbw	%xmm14, %xmm11
	movzbl	-60(%rsp), %r8d
	movd	%r8d, %xmm5
	punpcklwd	%xmm11, %xmm6
	movzbl	-59(%rsp), %r8d
	movd	%r8d, %xmm14
	punpckldq	%xmm6, %xmm7
	movzbl	-58(%rsp), %r8d
	movd	%r8d, %xmm6
	punpcklbw	%xmm13, %xmm2
	movzbl	-57(%rsp), %r8d
	movd	%r8d, %xmm0
	movdqa	%xmm0, 288(%rsp)
	punpcklbw	%xmm12, %xmm9
	movzbl	-56(%rsp), %r8d
	movd	%r8d, %xmm11
	punpcklwd	%xmm9, %xmm2
	movzbl	-55(%rsp), %r8d
	movd	%r8d, %xmm15
	punpcklbw	320(%rsp), %xmm3
	movzbl	-54(%rsp), %r8d
	movd	%r8d, %xmm0
	punpcklbw	304(%rsp), %xmm8
	movzbl	-53(%rsp), %r8d
	movd	%r8d, %xmm10
	punpcklwd	%xmm8, %xmm3
	movzbl	-52(%rsp), %r8d
	movd	%r8d, %xmm12
	punpckldq	%xmm3, %xmm2
	movzbl	-51(%rsp), %r8d
	movd	%r8d, %xmm9
	punpcklqdq	%xmm2, %xmm7
	movzbl	-50(%rsp), %r8d
	movd	%r8d, %xmm13
	punpcklbw	352(%rsp), %xmm1
	movzbl	-49(%rsp), %r8d
	movd	%r8d, %xmm8
	punpcklbw	336(%rsp), %xmm4
	movd	%r9d, %xmm2
	punpcklwd	%xmm4, %xmm1
	movd	%esi, %xmm3
	movdqa	%xmm3, 304(%rsp)
	punpcklbw	%xmm14, %xmm5
	movd	%ebx, %xmm14
	punpcklbw	288(%rsp), %xmm6
	movd	%ebp, %xmm3
	movdqa	%xmm3, 320(%rsp)
	punpcklwd	%xmm6, %xmm5
	movd	%r14d, %xmm4
	punpckldq	%xmm5, %xmm1
	movd	%r15d, %xmm6
	punpcklbw	%xmm15, %xmm11
	movd	%r12d, %xmm5
	punpcklbw	%xmm10, %xmm0
	movd	%r13d, %xmm3
	movdqa	%xmm3, 336(%rsp)
	punpcklwd	%xmm0, %xmm11
	movd	%eax, %xmm3
	punpcklbw	%xmm9, %xmm12
	movd	%ecx, %xmm0
	movdqa	%xmm0, 352(%rsp)
	movzbl	-104(%rsp), %r9d
	punpcklbw	%xmm8, %xmm13
	movd	%edx, %xmm0
	movzbl	-103(%rsp), %ebx
	movzbl	-102(%rsp), %eax
	punpcklwd	%xmm13, %xmm12
	movss	192(%rsp), %xmm8
	movaps	%xmm8, 192(%rsp)
	movzbl	-101(%rsp), %ecx
	movl	%ecx, 288(%rsp)
	movzbl	-100(%rsp), %ecx
	movl	%ecx, 188(%rsp)
	punpckldq	%xmm12, %xmm11
	movd	208(%rsp), %xmm12
	movzbl	-99(%rsp), %ecx
	movzbl	-98(%rsp), %esi
	punpcklqdq	%xmm11, %xmm1
	movss	256(%rsp), %xmm8
	movaps	%xmm8, 256(%rsp)
	movzbl	-97(%rsp), %ebp
	movzbl	-96(%rsp), %r14d
	punpcklbw	304(%rsp), %xmm2
	movd	%r11d, %xmm15
	movzbl	-95(%rsp), %r15d
	movzbl	-94(%rsp), %r12d
	punpcklbw	320(%rsp), %xmm14
	movd	%r9d, %xmm13
	movzbl	-93(%rsp), %r9d
	movzbl	-92(%rsp), %r13d
	punpcklwd	%xmm14, %xmm2
	movd	%ebx, %xmm10
	movzbl	-91(%rsp), %ebx
	movzbl	-90(%rsp), %edx
	punpcklbw	%xmm6, %xmm4
	movd	%eax, %xmm11
	movzbl	-89(%rsp), %eax
	movzbl	-88(%rsp), %r8d
	punpcklbw	336(%rsp), %xmm5
	movd	288(%rsp), %xmm9
	punpcklwd	%xmm5, %xmm4
	movd	188(%rsp), %xmm8
	punpckldq	%xmm4, %xmm2
	movd	%ecx, %xmm14
	punpcklbw	352(%rsp), %xmm3
	movd	%esi, %xmm6
	movdqa	%xmm0, %xmm4
	punpcklbw	192(%rsp), %xmm4
	movd	%ebp, %xmm0
	punpcklwd	%xmm4, %xmm3
	movd	%r14d, %xmm5
	punpcklbw	256(%rsp), %xmm12
	movd	%r15d, %xmm4
	punpcklbw	%xmm13, %xmm15
	movd	%r12d, %xmm13
	punpcklwd	%xmm15, %xmm12
	movd	%r9d, %xmm15
	punpckldq	%xmm12, %xmm3
	movd	%r13d, %xmm12
	punpcklqdq	%xmm3, %xmm2
	psllw	$7, %xmm2
	movd	%ebx, %xmm3
	pmovmskb	%xmm2, %ecx
	movd	%edx, %xmm2
	punpcklbw	%xmm11, %xmm10
	movd	%eax, %xmm11
	punpcklbw	%xmm8, %xmm9
	punpcklwd	%xmm9, %xmm10
	punpcklbw	%xmm6, %xmm14
	punpcklbw	%xmm5, %xmm0
	punpcklwd	%xmm0, %xmm14
	punpckldq	%xmm14, %xmm10
	punpcklbw	%xmm13, %xmm4
	punpcklbw	%xmm12, %xmm15
	punpcklwd	%xmm15, %xmm4
	psllw	$7, %xmm7
	psllw	$7, %xmm1
	punpcklbw	%xmm2, %xmm3
	movd	%r8d, %xmm0
	punpcklbw	%xmm0, %xmm11
	punpcklwd	%xmm11, %xmm3
	punpckldq	%xmm3, %xmm4
	punpcklqdq	%xmm4, %xmm10
	psllw	$7, %xmm10
	pmovmskb	%xmm10, %eax
	shll	$16, %eax
	orl	%ecx, %eax
	pmovmskb	%xmm1, %ecx
	shlq	$32, %rcx
	orq	%rax, %rcx
	pmovmskb	%xmm7, %edx
	shlq	$48, %rdx
	orq	%rcx, %rdx
	addq	$192, %rdi
	movq	%rdi, %rax
	movq	248(%rsp), %rsi
	leaq	-1(%rsi), %r9
	movq	240(%rsp), %rbx
	movq	232(%rsp), %r14
	movq	224(%rsp), %rdi
	leaq	161(%rdi), %r15
	jmp	.LBB10_34
.LBB10_51:
	leaq	64(%r11), %r10
	jmp	.LBB10_48
.LBB10_11:
	incq	%rax
	retq
.LBB10_17:
	movq	%r9, %rax
.LBB10_18:
	addq	$440, %rsp
	popq	%rbx
	popq	%r12
	popq	%r13
	popq	%r14
	popq	%r15
	popq	%rbp
	incq	%rax
	retq
.Lfunc_end10:
	.size	"unftp_control_codecs::line_parser::value::fresh_len", .Lfunc_end10-"unftp_control_codecs::line_parser::value::fresh_len"

	.section	".text.unftp_control_codecs::line_parser::value::escaped_value","ax",@progbits
	.p2align	4
	.type	"unftp_control_codecs::line_parser::value::escaped_value",@function
"unftp_control_codecs::line_parser::value::escaped_value":
	pushq	%rbp
	pushq	%r15
	pushq	%r14
	pushq	%r13
	pushq	%r12
	pushq	%rbx
	pushq	%rax
	movq	%rcx, %r15
	movq	%rdx, %r12
	movq	%rsi, %r14
	movq	%rdi, %rbx
	leaq	(%rsi,%rcx), %r13
	subq	%rcx, %r12
	xorl	%ebp, %ebp
	.p2align	4
.LBB11_1:
	cmpq	$2, %r12
	jb	.LBB11_17
	cmpb	$13, (%r13)
	jne	.LBB11_17
	cmpb	$0, 1(%r13)
	je	.LBB11_4
	.p2align	4
.LBB11_17:
	movq	%r13, %rdi
	movq	%r12, %rsi
	callq	"unftp_control_codecs::line_parser::value::fresh_len"
	subq	%rax, %r12
	je	.LBB11_20
	addq	%rax, %r13
	cmpq	$1, %r12
	je	.LBB11_19
	movzbl	(%r13), %ecx
	cmpl	$13, %ecx
	jne	.LBB11_24
	movzbl	1(%r13), %ecx
	testl	%ecx, %ecx
	jne	.LBB11_24
	addq	$2, %r13
	addq	$-2, %r12
	addq	$2, %rax
	addq	%rax, %rbp
	jmp	.LBB11_1
.LBB11_4:
	xorl	%eax, %eax
	cmpq	$8, %r12
	jae	.LBB11_11
	movq	%r13, %rdx
	movq	%r12, %rcx
.LBB11_6:
	addq	$-2, %rcx
	shrq	%rcx
	incq	%rcx
	xorl	%esi, %esi
	.p2align	4
.LBB11_7:
	cmpb	$13, (%rdx,%rsi,2)
	jne	.LBB11_16
	cmpb	$0, 1(%rdx,%rsi,2)
	jne	.LBB11_16
	incq	%rsi
	cmpq	%rsi, %rcx
	jne	.LBB11_7
	movq	%rcx, %rsi
	jmp	.LBB11_16
.LBB11_11:
	movq	%r12, %rcx
	movq	%r13, %rdx
	.p2align	4
.LBB11_12:
	movabsq	$3659230532665357, %rsi
	cmpq	%rsi, (%rdx)
	jne	.LBB11_6
	addq	$8, %rdx
	addq	$-8, %rcx
	addq	$4, %rax
	cmpq	$7, %rcx
	ja	.LBB11_12
	cmpq	$2, %rcx
	jae	.LBB11_6
	xorl	%esi, %esi
.LBB11_16:
	addq	%rsi, %rax
	leaq	(%r13,%rax,2), %r13
	addq	%rax, %rax
	subq	%rax, %r12
	addq	%rax, %rbp
	jmp	.LBB11_1
.LBB11_24:
	cmpl	$10, %ecx
	jne	.LBB11_20
.LBB11_25:
	addq	%r15, %rbp
	addq	%rax, %rbp
	movq	$1, (%rbx)
	movq	$1, 8(%rbx)
	movq	%r14, 16(%rbx)
	movq	%rbp, 24(%rbx)
	jmp	.LBB11_21
.LBB11_19:
	cmpb	$10, (%r13)
	je	.LBB11_25
.LBB11_20:
	xorps	%xmm0, %xmm0
	movups	%xmm0, 16(%rbx)
	movups	%xmm0, (%rbx)
.LBB11_21:
	addq	$8, %rsp
	popq	%rbx
	popq	%r12
	popq	%r13
	popq	%r14
	popq	%r15
	popq	%rbp
	retq
.Lfunc_end11:
	.size	"unftp_control_codecs::line_parser::value::escaped_value", .Lfunc_end11-"unftp_control_codecs::line_parser::value::escaped_value"

	.section	.rodata.cst16,"aM",@progbits,16
	.p2align	4, 0x0
.LCPI12_0:
	.zero	16,240
.LCPI12_1:
	.zero	16,192
.LCPI12_2:
	.zero	16,128
.LCPI12_3:
	.zero	16,224
.LCPI12_4:
	.zero	16,160
.LCPI12_5:
	.zero	16,144
.LCPI12_6:
	.zero	16,237
.LCPI12_7:
	.zero	16,244
.LCPI12_8:
	.zero	16,127
.LCPI12_9:
	.zero	16,254
.LCPI12_10:
	.zero	16,1
.LCPI12_11:
	.zero	16,96
.LCPI12_12:
	.zero	16,112
.LCPI12_13:
	.byte	255
	.byte	255
	.byte	255
	.byte	255
	.byte	255
	.byte	255
	.byte	255
	.byte	255
	.byte	255
	.byte	255
	.byte	255
	.byte	255
	.byte	255
	.byte	239
	.byte	223
	.byte	191
	.section	".text.unftp_control_message::utf8::long_text","ax",@progbits
	.p2align	4
	.type	"unftp_control_message::utf8::long_text",@function
"unftp_control_message::utf8::long_text":
	pushq	%rbp
	pushq	%r15
	pushq	%r14
	pushq	%r13
	pushq	%r12
	pushq	%rbx
	subq	$712, %rsp
	movq	%rdx, %r15
	movq	%rsi, %r14
	movq	%rdi, %rbx
	pxor	%xmm0, %xmm0
	movdqa	%xmm0, 688(%rsp)
	movq	$0, 704(%rsp)
	movdqu	(%rsi), %xmm1
	movdqu	16(%rsi), %xmm2
	por	%xmm1, %xmm2
	pmovmskb	%xmm2, %eax
	testl	%eax, %eax
	je	.LBB12_3
	movdqa	%xmm0, 608(%rsp)
	movq	$0, 624(%rsp)
	leaq	608(%rsp), %rdi
	movl	$32, %edx
	movq	%r14, %rsi
	callq	"core::str::utf8::from_utf8"
	cmpb	$0, 608(%rsp)
	je	.LBB12_7
	cmpb	$1, 624(%rsp)
	jne	.LBB12_7
.LBB12_3:
	leaq	688(%rsp), %rdi
	movq	%r14, %rsi
	movq	%r15, %rdx
	callq	"core::str::utf8::from_utf8"
	xorl	%eax, %eax
	cmpb	$0, 688(%rsp)
	sete	%cl
	jne	.LBB12_5
	movq	696(%rsp), %rdx
	movq	704(%rsp), %rsi
	jmp	.LBB12_6
.LBB12_5:
	xorl	%edx, %edx
	xorl	%esi, %esi
.LBB12_6:
	movb	%cl, %al
	movq	%rax, (%rbx)
	movq	%rdx, 8(%rbx)
	movq	%rsi, 16(%rbx)
	jmp	.LBB12_46
.LBB12_7:
	movl	$64, %eax
	subq	%r15, %rax
	movq	%r14, %rsi
	movq	%r15, %rdx
	.p2align	4
.LBB12_8:
	movdqu	(%rsi), %xmm0
	movdqu	16(%rsi), %xmm1
	por	%xmm0, %xmm1
	movdqu	32(%rsi), %xmm0
	movdqu	48(%rsi), %xmm2
	por	%xmm0, %xmm2
	por	%xmm1, %xmm2
	pmovmskb	%xmm2, %ecx
	testl	%ecx, %ecx
	jne	.LBB12_11
	addq	$-64, %rdx
	addq	$64, %rsi
	addq	$64, %rax
	cmpq	$63, %rdx
	ja	.LBB12_8
	pxor	%xmm0, %xmm0
	movdqa	%xmm0, 224(%rsp)
	xorl	%ecx, %ecx
	movdqa	%xmm0, 192(%rsp)
	movdqa	%xmm0, 176(%rsp)
	movdqa	%xmm0, 208(%rsp)
	movdqa	%xmm0, 48(%rsp)
	movdqa	%xmm0, (%rsp)
	movdqa	%xmm0, 32(%rsp)
	movdqa	%xmm0, 64(%rsp)
	movdqa	%xmm0, 16(%rsp)
	jmp	.LBB12_17
.LBB12_11:
	negq	%rax
	pxor	%xmm11, %xmm11
	xorl	%ecx, %ecx
	movq	%rsi, %rdi
	pxor	%xmm14, %xmm14
	pxor	%xmm13, %xmm13
	pxor	%xmm12, %xmm12
	pxor	%xmm9, %xmm9
	pxor	%xmm3, %xmm3
	pxor	%xmm7, %xmm7
	pxor	%xmm5, %xmm5
	pxor	%xmm6, %xmm6
	jmp	.LBB12_14
	.p2align	4
.LBB12_12:
	movdqa	%xmm2, %xmm0
	psrldq	$15, %xmm0
	movdqa	%xmm4, 240(%rsp)
	movdqa	%xmm4, %xmm9
	pslldq	$1, %xmm9
	por	%xmm0, %xmm9
	movdqa	%xmm4, %xmm0
	psrldq	$15, %xmm0
	movdqa	%xmm8, %xmm1
	pslldq	$1, %xmm1
	por	%xmm0, %xmm1
	movdqa	%xmm8, %xmm0
	movdqa	%xmm8, %xmm12
	psrldq	$15, %xmm0
	movdqa	%xmm10, %xmm15
	pslldq	$1, %xmm15
	por	%xmm0, %xmm15
	movdqa	%xmm2, %xmm0
	pslldq	$1, %xmm0
	movdqa	%xmm7, 192(%rsp)
	movdqa	%xmm11, %xmm8
	psrldq	$15, %xmm8
	por	%xmm0, %xmm8
	movdqa	.LCPI12_1(%rip), %xmm4
	movdqa	%xmm9, %xmm0
	pmaxub	%xmm4, %xmm0
	movdqa	%xmm5, 176(%rsp)
	movdqa	%xmm0, %xmm5
	movdqa	%xmm1, %xmm0
	pmaxub	%xmm4, %xmm0
	pcmpeqb	%xmm1, %xmm0
	movdqa	%xmm1, %xmm7
	movdqa	%xmm15, %xmm1
	pmaxub	%xmm4, %xmm1
	pcmpeqb	%xmm15, %xmm1
	movdqa	%xmm2, %xmm13
	movdqa	%xmm8, %xmm2
	pmaxub	%xmm4, %xmm2
	pcmpeqb	%xmm8, %xmm2
	movdqa	%xmm11, 304(%rsp)
	movdqa	%xmm4, %xmm11
	movdqa	%xmm3, 224(%rsp)
	movdqa	%xmm4, %xmm3
	movdqa	%xmm4, %xmm14
	pcmpgtb	%xmm13, %xmm14
	movdqa	%xmm13, 160(%rsp)
	pcmpgtb	%xmm10, %xmm11
	pcmpgtb	%xmm12, %xmm3
	movdqa	%xmm12, 288(%rsp)
	movdqa	%xmm14, 64(%rsp)
	pxor	%xmm2, %xmm14
	movdqa	%xmm14, 112(%rsp)
	movdqa	%xmm11, 48(%rsp)
	pxor	%xmm1, %xmm11
	movdqa	%xmm11, (%rsp)
	movdqa	%xmm3, 128(%rsp)
	pxor	%xmm0, %xmm3
	movdqa	%xmm3, 32(%rsp)
	movdqa	.LCPI12_0(%rip), %xmm14
	pand	%xmm14, %xmm13
	movdqa	%xmm13, 560(%rsp)
	movdqa	%xmm10, %xmm0
	pand	%xmm14, %xmm0
	movdqa	%xmm0, 576(%rsp)
	pand	%xmm14, %xmm12
	movdqa	%xmm12, 272(%rsp)
	movdqa	240(%rsp), %xmm12
	movdqa	%xmm12, %xmm0
	pand	%xmm14, %xmm0
	movdqa	%xmm0, 592(%rsp)
	movdqa	%xmm4, %xmm0
	pcmpgtb	%xmm8, %xmm0
	movdqa	%xmm0, 256(%rsp)
	movdqa	%xmm4, %xmm0
	pcmpgtb	%xmm15, %xmm0
	movdqa	%xmm0, 544(%rsp)
	movdqa	%xmm4, %xmm0
	pcmpgtb	%xmm7, %xmm0
	movdqa	%xmm0, 528(%rsp)
	movdqa	%xmm4, %xmm1
	pcmpgtb	%xmm9, %xmm1
	pcmpeqb	%xmm9, %xmm5
	movdqa	%xmm5, 480(%rsp)
	movdqa	.LCPI12_3(%rip), %xmm13
	movdqa	%xmm8, %xmm0
	pcmpeqb	%xmm13, %xmm0
	movdqa	%xmm0, 512(%rsp)
	movdqa	%xmm15, %xmm0
	pcmpeqb	%xmm13, %xmm0
	movdqa	%xmm0, 496(%rsp)
	movdqa	%xmm7, %xmm0
	pcmpeqb	%xmm13, %xmm0
	movdqa	%xmm0, 464(%rsp)
	pcmpeqb	%xmm9, %xmm13
	movdqa	%xmm8, %xmm0
	pcmpeqb	%xmm14, %xmm0
	movdqa	%xmm0, 80(%rsp)
	movdqa	%xmm15, %xmm0
	pcmpeqb	%xmm14, %xmm0
	movdqa	%xmm0, 96(%rsp)
	movdqa	%xmm7, %xmm0
	pcmpeqb	%xmm14, %xmm0
	movdqa	%xmm0, 448(%rsp)
	pcmpeqb	%xmm9, %xmm14
	movdqa	%xmm10, 16(%rsp)
	movdqa	.LCPI12_6(%rip), %xmm10
	movdqa	%xmm8, %xmm11
	pcmpeqb	%xmm10, %xmm11
	movdqa	%xmm15, %xmm0
	pcmpeqb	%xmm10, %xmm0
	movdqa	%xmm0, 416(%rsp)
	movdqa	%xmm7, %xmm0
	pcmpeqb	%xmm10, %xmm0
	movdqa	%xmm0, 400(%rsp)
	pcmpeqb	%xmm9, %xmm10
	movdqa	%xmm8, 432(%rsp)
	movdqa	%xmm8, 384(%rsp)
	movdqa	.LCPI12_9(%rip), %xmm0
	pand	%xmm0, %xmm8
	movdqa	%xmm6, 208(%rsp)
	movdqa	%xmm15, %xmm6
	movdqa	%xmm15, 368(%rsp)
	pand	%xmm0, %xmm15
	movdqa	%xmm7, %xmm5
	movdqa	%xmm7, 352(%rsp)
	pand	%xmm0, %xmm7
	movdqa	%xmm9, %xmm2
	movdqa	%xmm9, 336(%rsp)
	pand	%xmm0, %xmm2
	pcmpeqb	%xmm4, %xmm2
	movdqa	%xmm2, 144(%rsp)
	pcmpeqb	%xmm4, %xmm7
	movdqa	%xmm7, 320(%rsp)
	pcmpeqb	%xmm4, %xmm15
	pcmpeqb	%xmm4, %xmm8
	movdqa	%xmm4, %xmm3
	pcmpgtb	%xmm12, %xmm3
	movdqa	%xmm3, %xmm7
	pxor	480(%rsp), %xmm3
	movdqa	.LCPI12_2(%rip), %xmm2
	pand	%xmm2, %xmm7
	pand	%xmm1, %xmm7
	psubusb	%xmm1, %xmm3
	movdqa	128(%rsp), %xmm1
	pand	%xmm2, %xmm1
	movdqa	528(%rsp), %xmm0
	pand	%xmm0, %xmm1
	movdqa	%xmm1, 128(%rsp)
	movdqa	32(%rsp), %xmm1
	psubusb	%xmm0, %xmm1
	movdqa	%xmm1, 32(%rsp)
	movdqa	48(%rsp), %xmm1
	pand	%xmm2, %xmm1
	movdqa	544(%rsp), %xmm0
	pand	%xmm0, %xmm1
	movdqa	%xmm1, 48(%rsp)
	movdqa	(%rsp), %xmm1
	psubusb	%xmm0, %xmm1
	movdqa	%xmm1, (%rsp)
	movdqa	64(%rsp), %xmm0
	pand	%xmm2, %xmm0
	movdqa	256(%rsp), %xmm12
	pand	%xmm12, %xmm0
	movdqa	%xmm0, 64(%rsp)
	movdqa	112(%rsp), %xmm1
	psubusb	%xmm12, %xmm1
	movdqa	%xmm1, 112(%rsp)
	movdqa	.LCPI12_4(%rip), %xmm2
	pand	%xmm2, %xmm13
	movdqa	464(%rsp), %xmm12
	pand	%xmm2, %xmm12
	movdqa	496(%rsp), %xmm0
	pand	%xmm2, %xmm0
	movdqa	512(%rsp), %xmm1
	pand	%xmm2, %xmm1
	movdqa	.LCPI12_5(%rip), %xmm2
	pand	%xmm2, %xmm14
	por	%xmm13, %xmm14
	movdqa	448(%rsp), %xmm13
	pand	%xmm2, %xmm13
	por	%xmm12, %xmm13
	movdqa	96(%rsp), %xmm4
	pand	%xmm2, %xmm4
	por	%xmm0, %xmm4
	movdqa	%xmm4, 96(%rsp)
	movdqa	80(%rsp), %xmm12
	pand	%xmm2, %xmm12
	por	%xmm1, %xmm12
	pcmpeqd	%xmm4, %xmm4
	pxor	%xmm4, %xmm11
	por	%xmm2, %xmm11
	movdqa	%xmm11, 80(%rsp)
	movdqa	416(%rsp), %xmm11
	pxor	%xmm4, %xmm11
	por	%xmm2, %xmm11
	movdqa	400(%rsp), %xmm0
	pxor	%xmm4, %xmm0
	por	%xmm2, %xmm0
	pxor	%xmm4, %xmm10
	por	%xmm2, %xmm10
	movdqa	.LCPI12_7(%rip), %xmm1
	pcmpeqb	%xmm1, %xmm9
	movdqa	.LCPI12_8(%rip), %xmm2
	pand	%xmm2, %xmm9
	pandn	%xmm10, %xmm9
	pcmpeqb	%xmm1, %xmm5
	pand	%xmm2, %xmm5
	pandn	%xmm0, %xmm5
	pcmpeqb	%xmm1, %xmm6
	pand	%xmm2, %xmm6
	pandn	%xmm11, %xmm6
	movdqa	432(%rsp), %xmm0
	pcmpeqb	%xmm1, %xmm0
	pand	%xmm2, %xmm0
	pandn	80(%rsp), %xmm0
	movdqa	560(%rsp), %xmm2
	psubusb	%xmm2, %xmm12
	movdqa	%xmm12, 80(%rsp)
	psubusb	%xmm0, %xmm2
	movdqa	%xmm2, %xmm12
	movdqa	576(%rsp), %xmm10
	movdqa	96(%rsp), %xmm2
	psubusb	%xmm10, %xmm2
	psubusb	%xmm6, %xmm10
	movdqa	272(%rsp), %xmm6
	psubusb	%xmm6, %xmm13
	psubusb	%xmm5, %xmm6
	movdqa	592(%rsp), %xmm5
	psubusb	%xmm5, %xmm14
	psubusb	%xmm9, %xmm5
	movdqa	336(%rsp), %xmm0
	psubusb	%xmm1, %xmm0
	por	%xmm7, %xmm0
	movdqa	%xmm0, %xmm11
	movdqa	352(%rsp), %xmm0
	psubusb	%xmm1, %xmm0
	por	128(%rsp), %xmm0
	movdqa	%xmm0, %xmm7
	movdqa	368(%rsp), %xmm0
	psubusb	%xmm1, %xmm0
	por	48(%rsp), %xmm0
	movdqa	%xmm0, %xmm4
	movdqa	384(%rsp), %xmm0
	psubusb	%xmm1, %xmm0
	por	64(%rsp), %xmm0
	movdqa	.LCPI12_10(%rip), %xmm1
	movdqa	144(%rsp), %xmm9
	pand	%xmm1, %xmm9
	por	%xmm11, %xmm9
	movdqa	304(%rsp), %xmm11
	por	%xmm3, %xmm9
	por	%xmm5, %xmm9
	por	%xmm14, %xmm9
	movdqa	%xmm9, 144(%rsp)
	movdqa	320(%rsp), %xmm9
	pand	%xmm1, %xmm9
	por	%xmm7, %xmm9
	por	32(%rsp), %xmm9
	por	%xmm6, %xmm9
	por	%xmm13, %xmm9
	pand	%xmm1, %xmm15
	por	%xmm4, %xmm15
	por	(%rsp), %xmm15
	por	%xmm10, %xmm15
	por	%xmm2, %xmm15
	pand	%xmm1, %xmm8
	por	%xmm0, %xmm8
	por	112(%rsp), %xmm8
	por	%xmm12, %xmm8
	por	80(%rsp), %xmm8
	movdqa	160(%rsp), %xmm14
	movdqa	%xmm14, %xmm1
	psrldq	$14, %xmm1
	movdqa	240(%rsp), %xmm13
	movdqa	%xmm13, %xmm0
	pslldq	$2, %xmm0
	por	%xmm1, %xmm0
	movdqa	%xmm13, %xmm1
	psrldq	$14, %xmm1
	movdqa	288(%rsp), %xmm12
	movdqa	%xmm12, %xmm5
	pslldq	$2, %xmm5
	por	%xmm1, %xmm5
	movdqa	%xmm12, %xmm1
	psrldq	$14, %xmm1
	movdqa	16(%rsp), %xmm6
	pslldq	$2, %xmm6
	por	%xmm1, %xmm6
	movdqa	%xmm14, %xmm1
	pslldq	$2, %xmm1
	movdqa	%xmm11, %xmm10
	psrldq	$14, %xmm10
	por	%xmm1, %xmm10
	movdqa	.LCPI12_11(%rip), %xmm1
	psubusb	%xmm1, %xmm10
	psubusb	%xmm1, %xmm6
	psubusb	%xmm1, %xmm5
	psubusb	%xmm1, %xmm0
	movdqa	%xmm14, %xmm2
	psrldq	$13, %xmm2
	movdqa	%xmm13, %xmm1
	pslldq	$3, %xmm1
	por	%xmm2, %xmm1
	movdqa	%xmm13, %xmm3
	psrldq	$13, %xmm3
	movdqa	%xmm12, %xmm2
	pslldq	$3, %xmm2
	por	%xmm3, %xmm2
	movdqa	%xmm12, %xmm3
	psrldq	$13, %xmm3
	movdqa	16(%rsp), %xmm4
	pslldq	$3, %xmm4
	por	%xmm3, %xmm4
	movdqa	%xmm14, %xmm3
	pslldq	$3, %xmm3
	psrldq	$13, %xmm11
	por	%xmm3, %xmm11
	movdqa	.LCPI12_12(%rip), %xmm3
	psubusb	%xmm3, %xmm11
	por	%xmm10, %xmm11
	movdqa	16(%rsp), %xmm10
	psubusb	%xmm3, %xmm4
	por	%xmm6, %xmm4
	movdqa	208(%rsp), %xmm6
	psubusb	%xmm3, %xmm2
	por	%xmm5, %xmm2
	movdqa	176(%rsp), %xmm5
	psubusb	%xmm3, %xmm1
	movdqa	224(%rsp), %xmm3
	por	%xmm0, %xmm1
	movdqa	.LCPI12_2(%rip), %xmm0
	pand	%xmm0, %xmm11
	pxor	%xmm8, %xmm11
	movdqa	192(%rsp), %xmm7
	pand	%xmm0, %xmm4
	pxor	%xmm15, %xmm4
	pand	%xmm0, %xmm2
	pxor	%xmm9, %xmm2
	pand	%xmm0, %xmm1
	pxor	144(%rsp), %xmm1
	pcmpeqd	%xmm0, %xmm0
	psubusb	%xmm0, %xmm14
	psubusb	%xmm0, %xmm13
	movdqa	%xmm10, %xmm9
	psubusb	.LCPI12_13(%rip), %xmm9
	psubusb	%xmm0, %xmm12
.LBB12_13:
	por	%xmm4, %xmm6
	por	%xmm2, %xmm5
	por	%xmm1, %xmm7
	por	%xmm11, %xmm3
	leaq	(%rax,%rcx), %r8
	addq	$-64, %rcx
	addq	$64, %rdi
	movdqa	%xmm10, %xmm11
	cmpq	$63, %r8
	jbe	.LBB12_16
.LBB12_14:
	movdqu	(%rdi), %xmm2
	movdqu	16(%rdi), %xmm4
	movdqu	32(%rdi), %xmm8
	movdqu	48(%rdi), %xmm10
	movdqa	%xmm4, %xmm0
	por	%xmm2, %xmm0
	movdqa	%xmm8, %xmm1
	por	%xmm10, %xmm1
	por	%xmm0, %xmm1
	pmovmskb	%xmm1, %r8d
	testl	%r8d, %r8d
	jne	.LBB12_12
	movdqa	%xmm14, %xmm11
	movdqa	%xmm13, %xmm1
	movdqa	%xmm12, %xmm2
	movdqa	%xmm9, %xmm4
	pxor	%xmm14, %xmm14
	pxor	%xmm13, %xmm13
	pxor	%xmm12, %xmm12
	pxor	%xmm9, %xmm9
	jmp	.LBB12_13
.LBB12_16:
	movdqa	%xmm14, 48(%rsp)
	movdqa	%xmm9, 64(%rsp)
	movdqa	%xmm12, 32(%rsp)
	movdqa	%xmm13, (%rsp)
	movdqa	%xmm10, 16(%rsp)
	movdqa	%xmm7, 192(%rsp)
	movdqa	%xmm6, 208(%rsp)
	movdqa	%xmm5, 176(%rsp)
	movdqa	%xmm3, 224(%rsp)
	negq	%rcx
.LBB12_17:
	leaq	608(%rsp), %rdi
	callq	"simdutf8::last_block"
	movdqa	608(%rsp), %xmm4
	movdqa	624(%rsp), %xmm5
	movdqa	640(%rsp), %xmm3
	movdqa	656(%rsp), %xmm2
	movdqa	%xmm5, %xmm0
	por	%xmm4, %xmm0
	movdqa	%xmm3, %xmm1
	por	%xmm2, %xmm1
	por	%xmm0, %xmm1
	pmovmskb	%xmm1, %eax
	testl	%eax, %eax
	movdqa	(%rsp), %xmm13
	movdqa	32(%rsp), %xmm15
	movdqa	64(%rsp), %xmm1
	movdqa	48(%rsp), %xmm8
	je	.LBB12_19
	movdqa	%xmm4, %xmm0
	psrldq	$15, %xmm0
	movdqa	%xmm5, %xmm8
	pslldq	$1, %xmm8
	por	%xmm0, %xmm8
	movdqa	%xmm5, %xmm0
	movdqa	%xmm5, %xmm6
	movdqa	%xmm5, 144(%rsp)
	psrldq	$15, %xmm0
	movdqa	%xmm3, %xmm1
	movdqa	%xmm3, %xmm5
	pslldq	$1, %xmm1
	por	%xmm0, %xmm1
	movdqa	%xmm1, %xmm7
	movdqa	%xmm4, %xmm0
	pslldq	$1, %xmm0
	movdqa	16(%rsp), %xmm1
	psrldq	$15, %xmm1
	por	%xmm0, %xmm1
	movdqa	%xmm3, %xmm0
	psrldq	$15, %xmm0
	movdqa	%xmm2, %xmm14
	movdqa	%xmm2, %xmm3
	pslldq	$1, %xmm14
	por	%xmm0, %xmm14
	movdqa	.LCPI12_1(%rip), %xmm12
	movdqa	%xmm7, %xmm0
	pmaxub	%xmm12, %xmm0
	movdqa	%xmm1, %xmm2
	pmaxub	%xmm12, %xmm1
	pcmpeqb	%xmm2, %xmm1
	movdqa	%xmm2, %xmm10
	movdqa	%xmm14, %xmm2
	pmaxub	%xmm12, %xmm2
	pcmpeqb	%xmm14, %xmm2
	movdqa	%xmm12, %xmm11
	movdqa	%xmm12, %xmm9
	pcmpgtb	%xmm3, %xmm9
	movdqa	%xmm3, 240(%rsp)
	pcmpgtb	%xmm4, %xmm11
	movdqa	%xmm9, 64(%rsp)
	pxor	%xmm2, %xmm9
	movdqa	%xmm9, 32(%rsp)
	movdqa	%xmm11, 48(%rsp)
	pxor	%xmm1, %xmm11
	movdqa	%xmm11, 112(%rsp)
	movdqa	%xmm12, %xmm2
	pcmpeqb	%xmm7, %xmm0
	movdqa	%xmm5, 304(%rsp)
	pcmpgtb	%xmm5, %xmm2
	movdqa	%xmm2, 128(%rsp)
	pxor	%xmm0, %xmm2
	movdqa	%xmm2, (%rsp)
	movdqa	%xmm8, %xmm1
	pmaxub	%xmm12, %xmm1
	movdqa	.LCPI12_0(%rip), %xmm15
	pand	%xmm15, %xmm3
	movdqa	%xmm3, 576(%rsp)
	movdqa	%xmm4, %xmm0
	pand	%xmm15, %xmm0
	movdqa	%xmm0, 288(%rsp)
	pand	%xmm15, %xmm5
	movdqa	%xmm5, 160(%rsp)
	movdqa	%xmm6, %xmm0
	pand	%xmm15, %xmm0
	movdqa	%xmm0, 592(%rsp)
	movdqa	%xmm12, %xmm0
	pcmpgtb	%xmm14, %xmm0
	movdqa	%xmm0, 272(%rsp)
	movdqa	%xmm12, %xmm0
	pcmpgtb	%xmm10, %xmm0
	movdqa	%xmm0, 560(%rsp)
	movdqa	%xmm12, %xmm0
	pcmpgtb	%xmm7, %xmm0
	movdqa	%xmm0, 256(%rsp)
	movdqa	%xmm12, %xmm0
	movdqa	%xmm12, %xmm2
	pcmpgtb	%xmm8, %xmm0
	movdqa	%xmm0, 528(%rsp)
	pcmpeqb	%xmm8, %xmm1
	movdqa	%xmm8, %xmm3
	movdqa	.LCPI12_3(%rip), %xmm5
	movdqa	%xmm14, %xmm0
	pcmpeqb	%xmm5, %xmm0
	movdqa	%xmm0, 544(%rsp)
	movdqa	%xmm10, %xmm0
	pcmpeqb	%xmm5, %xmm0
	movdqa	%xmm0, 512(%rsp)
	movdqa	%xmm7, %xmm0
	pcmpeqb	%xmm5, %xmm0
	movdqa	%xmm0, 496(%rsp)
	pcmpeqb	%xmm8, %xmm5
	movdqa	%xmm5, 480(%rsp)
	movdqa	%xmm14, %xmm0
	pcmpeqb	%xmm15, %xmm0
	movdqa	%xmm0, 80(%rsp)
	movdqa	%xmm10, %xmm8
	pcmpeqb	%xmm15, %xmm8
	movdqa	%xmm7, %xmm13
	pcmpeqb	%xmm15, %xmm13
	pcmpeqb	%xmm3, %xmm15
	movdqa	.LCPI12_6(%rip), %xmm9
	movdqa	%xmm14, %xmm0
	pcmpeqb	%xmm9, %xmm0
	movdqa	%xmm0, 464(%rsp)
	movdqa	%xmm10, %xmm0
	pcmpeqb	%xmm9, %xmm0
	movdqa	%xmm0, 448(%rsp)
	movdqa	%xmm7, %xmm0
	pcmpeqb	%xmm9, %xmm0
	movdqa	%xmm0, 432(%rsp)
	pcmpeqb	%xmm3, %xmm9
	movdqa	%xmm14, 672(%rsp)
	movdqa	%xmm14, 400(%rsp)
	movdqa	.LCPI12_9(%rip), %xmm0
	pand	%xmm0, %xmm14
	movdqa	%xmm10, %xmm6
	movdqa	%xmm10, %xmm5
	movdqa	%xmm10, 384(%rsp)
	pand	%xmm0, %xmm6
	movdqa	%xmm7, %xmm12
	movdqa	%xmm7, 368(%rsp)
	pand	%xmm0, %xmm7
	movdqa	%xmm4, 416(%rsp)
	movdqa	%xmm3, %xmm10
	movdqa	%xmm3, 352(%rsp)
	pand	%xmm0, %xmm3
	pcmpeqb	%xmm2, %xmm3
	movdqa	%xmm3, 96(%rsp)
	pcmpeqb	%xmm2, %xmm7
	movdqa	%xmm7, 336(%rsp)
	pcmpeqb	%xmm2, %xmm6
	movdqa	%xmm6, 320(%rsp)
	pcmpeqb	%xmm2, %xmm14
	movdqa	%xmm2, %xmm7
	pcmpgtb	144(%rsp), %xmm7
	movdqa	%xmm7, %xmm6
	pxor	%xmm1, %xmm7
	movdqa	.LCPI12_2(%rip), %xmm3
	pand	%xmm3, %xmm6
	movdqa	528(%rsp), %xmm0
	pand	%xmm0, %xmm6
	psubusb	%xmm0, %xmm7
	movdqa	128(%rsp), %xmm1
	pand	%xmm3, %xmm1
	movdqa	256(%rsp), %xmm0
	pand	%xmm0, %xmm1
	movdqa	%xmm1, 128(%rsp)
	movdqa	(%rsp), %xmm2
	psubusb	%xmm0, %xmm2
	movdqa	%xmm2, (%rsp)
	movdqa	48(%rsp), %xmm1
	pand	%xmm3, %xmm1
	movdqa	560(%rsp), %xmm0
	pand	%xmm0, %xmm1
	movdqa	%xmm1, 48(%rsp)
	movdqa	112(%rsp), %xmm1
	psubusb	%xmm0, %xmm1
	movdqa	%xmm1, 112(%rsp)
	movdqa	64(%rsp), %xmm0
	pand	%xmm3, %xmm0
	movdqa	272(%rsp), %xmm2
	pand	%xmm2, %xmm0
	movdqa	%xmm0, 64(%rsp)
	movdqa	32(%rsp), %xmm1
	psubusb	%xmm2, %xmm1
	movdqa	%xmm1, 32(%rsp)
	movdqa	.LCPI12_4(%rip), %xmm4
	movdqa	480(%rsp), %xmm0
	pand	%xmm4, %xmm0
	movdqa	496(%rsp), %xmm1
	pand	%xmm4, %xmm1
	movdqa	512(%rsp), %xmm2
	pand	%xmm4, %xmm2
	movdqa	544(%rsp), %xmm3
	pand	%xmm4, %xmm3
	movdqa	.LCPI12_5(%rip), %xmm4
	pand	%xmm4, %xmm15
	por	%xmm0, %xmm15
	pand	%xmm4, %xmm13
	por	%xmm1, %xmm13
	pand	%xmm4, %xmm8
	por	%xmm2, %xmm8
	movdqa	%xmm8, 272(%rsp)
	movdqa	80(%rsp), %xmm8
	pand	%xmm4, %xmm8
	por	%xmm3, %xmm8
	pcmpeqd	%xmm3, %xmm3
	movdqa	464(%rsp), %xmm11
	pxor	%xmm3, %xmm11
	movdqa	448(%rsp), %xmm1
	pxor	%xmm3, %xmm1
	movdqa	432(%rsp), %xmm2
	pxor	%xmm3, %xmm2
	pxor	%xmm3, %xmm9
	por	%xmm4, %xmm11
	por	%xmm4, %xmm1
	movdqa	%xmm1, %xmm3
	por	%xmm4, %xmm2
	movdqa	%xmm2, %xmm0
	por	%xmm4, %xmm9
	movdqa	.LCPI12_7(%rip), %xmm1
	pcmpeqb	%xmm1, %xmm10
	movdqa	.LCPI12_8(%rip), %xmm2
	pand	%xmm2, %xmm10
	pandn	%xmm9, %xmm10
	pcmpeqb	%xmm1, %xmm12
	pand	%xmm2, %xmm12
	pandn	%xmm0, %xmm12
	pcmpeqb	%xmm1, %xmm5
	pand	%xmm2, %xmm5
	pandn	%xmm3, %xmm5
	movdqa	672(%rsp), %xmm0
	pcmpeqb	%xmm1, %xmm0
	pand	%xmm2, %xmm0
	pandn	%xmm11, %xmm0
	movdqa	576(%rsp), %xmm2
	psubusb	%xmm2, %xmm8
	movdqa	%xmm8, 80(%rsp)
	psubusb	%xmm0, %xmm2
	movdqa	288(%rsp), %xmm9
	movdqa	272(%rsp), %xmm3
	psubusb	%xmm9, %xmm3
	psubusb	%xmm5, %xmm9
	movdqa	160(%rsp), %xmm5
	psubusb	%xmm5, %xmm13
	psubusb	%xmm12, %xmm5
	movdqa	592(%rsp), %xmm11
	psubusb	%xmm11, %xmm15
	psubusb	%xmm10, %xmm11
	movdqa	352(%rsp), %xmm0
	psubusb	%xmm1, %xmm0
	por	%xmm6, %xmm0
	movdqa	%xmm0, %xmm8
	movdqa	368(%rsp), %xmm0
	psubusb	%xmm1, %xmm0
	por	128(%rsp), %xmm0
	movdqa	%xmm0, %xmm4
	movdqa	384(%rsp), %xmm0
	psubusb	%xmm1, %xmm0
	por	48(%rsp), %xmm0
	movdqa	%xmm0, %xmm12
	movdqa	400(%rsp), %xmm0
	psubusb	%xmm1, %xmm0
	por	64(%rsp), %xmm0
	movdqa	.LCPI12_10(%rip), %xmm1
	movdqa	96(%rsp), %xmm6
	pand	%xmm1, %xmm6
	por	%xmm8, %xmm6
	por	%xmm7, %xmm6
	por	%xmm11, %xmm6
	por	%xmm15, %xmm6
	movdqa	%xmm6, 96(%rsp)
	movdqa	336(%rsp), %xmm7
	pand	%xmm1, %xmm7
	por	%xmm4, %xmm7
	por	(%rsp), %xmm7
	por	%xmm5, %xmm7
	por	%xmm13, %xmm7
	movdqa	320(%rsp), %xmm10
	pand	%xmm1, %xmm10
	por	%xmm12, %xmm10
	por	112(%rsp), %xmm10
	por	%xmm9, %xmm10
	por	%xmm3, %xmm10
	pand	%xmm1, %xmm14
	por	%xmm0, %xmm14
	por	32(%rsp), %xmm14
	por	%xmm2, %xmm14
	por	80(%rsp), %xmm14
	movdqa	416(%rsp), %xmm6
	movdqa	%xmm6, %xmm1
	psrldq	$14, %xmm1
	movdqa	144(%rsp), %xmm3
	movdqa	%xmm3, %xmm0
	pslldq	$2, %xmm0
	por	%xmm1, %xmm0
	movdqa	%xmm3, %xmm2
	movdqa	%xmm3, %xmm8
	psrldq	$14, %xmm2
	movdqa	304(%rsp), %xmm5
	movdqa	%xmm5, %xmm1
	pslldq	$2, %xmm1
	por	%xmm2, %xmm1
	movdqa	%xmm6, %xmm3
	pslldq	$2, %xmm3
	movdqa	16(%rsp), %xmm12
	movdqa	%xmm12, %xmm2
	psrldq	$14, %xmm2
	por	%xmm3, %xmm2
	movdqa	%xmm5, %xmm4
	movdqa	%xmm5, %xmm11
	psrldq	$14, %xmm4
	movdqa	240(%rsp), %xmm9
	movdqa	%xmm9, %xmm3
	pslldq	$2, %xmm3
	por	%xmm4, %xmm3
	movdqa	.LCPI12_11(%rip), %xmm4
	psubusb	%xmm4, %xmm3
	psubusb	%xmm4, %xmm2
	psubusb	%xmm4, %xmm1
	psubusb	%xmm4, %xmm0
	movdqa	%xmm6, %xmm4
	psrldq	$13, %xmm4
	movdqa	%xmm8, %xmm13
	pslldq	$3, %xmm13
	por	%xmm4, %xmm13
	psrldq	$13, %xmm8
	movdqa	%xmm5, %xmm15
	pslldq	$3, %xmm15
	por	%xmm8, %xmm15
	pslldq	$3, %xmm6
	movdqa	%xmm12, %xmm8
	psrldq	$13, %xmm8
	por	%xmm6, %xmm8
	psrldq	$13, %xmm11
	movdqa	%xmm9, %xmm5
	pslldq	$3, %xmm5
	por	%xmm11, %xmm5
	movdqa	.LCPI12_12(%rip), %xmm4
	psubusb	%xmm4, %xmm5
	por	%xmm3, %xmm5
	psubusb	%xmm4, %xmm8
	por	%xmm2, %xmm8
	psubusb	%xmm4, %xmm15
	por	%xmm1, %xmm15
	psubusb	%xmm4, %xmm13
	por	%xmm0, %xmm13
	movdqa	.LCPI12_2(%rip), %xmm0
	pand	%xmm0, %xmm5
	pxor	%xmm14, %xmm5
	pand	%xmm0, %xmm8
	pxor	%xmm10, %xmm8
	pand	%xmm0, %xmm15
	pxor	%xmm7, %xmm15
	pand	%xmm0, %xmm13
	movdqa	%xmm9, %xmm0
	psubusb	.LCPI12_13(%rip), %xmm0
	pxor	96(%rsp), %xmm13
	por	%xmm5, %xmm0
	movdqa	%xmm0, %xmm1
.LBB12_19:
	por	192(%rsp), %xmm13
	por	224(%rsp), %xmm8
	por	%xmm13, %xmm8
	por	176(%rsp), %xmm15
	por	208(%rsp), %xmm1
	por	%xmm15, %xmm1
	por	%xmm8, %xmm1
	pxor	%xmm0, %xmm0
	pcmpeqb	%xmm1, %xmm0
	pmovmskb	%xmm0, %eax
	cmpl	$65535, %eax
	je	.LBB12_44
	xorl	%ebp, %ebp
	jmp	.LBB12_22
	.p2align	4
.LBB12_21:
	por	288(%rsp), %xmm8
	por	208(%rsp), %xmm0
	por	%xmm8, %xmm0
	por	192(%rsp), %xmm9
	por	304(%rsp), %xmm1
	por	%xmm9, %xmm1
	por	%xmm0, %xmm1
	pxor	%xmm0, %xmm0
	pcmpeqb	%xmm1, %xmm0
	pmovmskb	%xmm0, %eax
	cmpl	$65535, %eax
	jne	.LBB12_41
.LBB12_22:
	movq	%rbp, %r13
	movq	%r15, %r12
	subq	%rbp, %r12
	cmpq	$1025, %r12
	jb	.LBB12_41
	leaq	1024(%r13), %rbp
	xorl	%ecx, %ecx
	cmpb	$-64, 1024(%r14,%r13)
	setl	%cl
	subq	%rcx, %rbp
	xorl	%edx, %edx
	cmpb	$-64, (%r14,%rbp)
	setl	%dl
	subq	%rdx, %rbp
	xorl	%esi, %esi
	cmpb	$-64, (%r14,%rbp)
	setl	%sil
	subq	%rsi, %rbp
	leaq	(%r14,%r13), %rdi
	movq	%rbp, %rax
	subq	%r13, %rax
	cmpq	$64, %rax
	jb	.LBB12_28
	negq	%rcx
	negq	%rdx
	negq	%rsi
	addq	%rcx, %rdx
	addq	%rsi, %rdx
	addq	$960, %rdx
	xorl	%ecx, %ecx
	movq	%rdi, %rsi
	.p2align	4
.LBB12_25:
	movdqu	(%rsi), %xmm0
	movdqu	16(%rsi), %xmm1
	por	%xmm0, %xmm1
	movdqu	32(%rsi), %xmm0
	movdqu	48(%rsi), %xmm2
	por	%xmm0, %xmm2
	por	%xmm1, %xmm2
	pmovmskb	%xmm2, %r8d
	testl	%r8d, %r8d
	jne	.LBB12_33
	addq	$64, %rcx
	leaq	-64(%rdx), %r8
	addq	$64, %rsi
	addq	$-64, %rax
	cmpq	$63, %rdx
	movq	%r8, %rdx
	ja	.LBB12_25
	addq	$64, %r8
	movq	%r8, %rax
	jmp	.LBB12_29
	.p2align	4
.LBB12_28:
	xorl	%ecx, %ecx
.LBB12_29:
	addq	%rcx, %rdi
	pxor	%xmm0, %xmm0
	movdqa	%xmm0, 208(%rsp)
	xorl	%ecx, %ecx
	movq	%rdi, %rsi
	movq	%rax, %rdx
.LBB12_30:
	movdqa	%xmm0, 288(%rsp)
	movdqa	%xmm0, 192(%rsp)
	movdqa	%xmm0, 304(%rsp)
	movdqa	%xmm0, 16(%rsp)
	movdqa	%xmm0, (%rsp)
	movdqa	%xmm0, 160(%rsp)
	movdqa	%xmm0, 32(%rsp)
	movdqa	%xmm0, 176(%rsp)
.LBB12_31:
	leaq	608(%rsp), %rdi
	callq	"simdutf8::last_block"
	movdqa	608(%rsp), %xmm4
	movdqa	624(%rsp), %xmm5
	movdqa	640(%rsp), %xmm3
	movdqa	656(%rsp), %xmm2
	movdqa	%xmm5, %xmm0
	por	%xmm4, %xmm0
	movdqa	%xmm3, %xmm1
	por	%xmm2, %xmm1
	por	%xmm0, %xmm1
	pmovmskb	%xmm1, %eax
	testl	%eax, %eax
	movdqa	(%rsp), %xmm8
	movdqa	160(%rsp), %xmm9
	movdqa	16(%rsp), %xmm0
	movdqa	32(%rsp), %xmm1
	je	.LBB12_21
	movdqa	%xmm4, %xmm0
	psrldq	$15, %xmm0
	movdqa	%xmm5, %xmm8
	pslldq	$1, %xmm8
	por	%xmm0, %xmm8
	movdqa	%xmm5, %xmm0
	movdqa	%xmm5, %xmm6
	movdqa	%xmm5, 144(%rsp)
	psrldq	$15, %xmm0
	movdqa	%xmm3, %xmm1
	movdqa	%xmm3, %xmm5
	pslldq	$1, %xmm1
	por	%xmm0, %xmm1
	movdqa	%xmm1, %xmm10
	movdqa	%xmm4, %xmm0
	pslldq	$1, %xmm0
	movdqa	176(%rsp), %xmm15
	psrldq	$15, %xmm15
	por	%xmm0, %xmm15
	movdqa	%xmm3, %xmm0
	psrldq	$15, %xmm0
	movdqa	%xmm2, %xmm14
	movdqa	%xmm2, %xmm3
	pslldq	$1, %xmm14
	por	%xmm0, %xmm14
	movdqa	.LCPI12_1(%rip), %xmm12
	movdqa	%xmm1, %xmm0
	pmaxub	%xmm12, %xmm0
	movdqa	%xmm15, %xmm1
	pmaxub	%xmm12, %xmm1
	pcmpeqb	%xmm15, %xmm1
	movdqa	%xmm14, %xmm2
	pmaxub	%xmm12, %xmm2
	pcmpeqb	%xmm14, %xmm2
	movdqa	%xmm12, %xmm11
	movdqa	%xmm12, %xmm9
	pcmpgtb	%xmm3, %xmm9
	movdqa	%xmm3, 240(%rsp)
	pcmpgtb	%xmm4, %xmm11
	movdqa	%xmm9, 32(%rsp)
	pxor	%xmm2, %xmm9
	movdqa	%xmm9, (%rsp)
	movdqa	%xmm11, 64(%rsp)
	pxor	%xmm1, %xmm11
	movdqa	%xmm11, 128(%rsp)
	movdqa	%xmm12, %xmm2
	pcmpeqb	%xmm10, %xmm0
	movdqa	%xmm5, 224(%rsp)
	pcmpgtb	%xmm5, %xmm2
	movdqa	%xmm2, 48(%rsp)
	pxor	%xmm0, %xmm2
	movdqa	%xmm2, 16(%rsp)
	movdqa	%xmm8, %xmm1
	pmaxub	%xmm12, %xmm1
	movdqa	.LCPI12_0(%rip), %xmm7
	pand	%xmm7, %xmm3
	movdqa	%xmm3, 272(%rsp)
	movdqa	%xmm4, %xmm0
	pand	%xmm7, %xmm0
	movdqa	%xmm0, 160(%rsp)
	pand	%xmm7, %xmm5
	movdqa	%xmm5, 592(%rsp)
	movdqa	%xmm6, %xmm0
	pand	%xmm7, %xmm0
	movdqa	%xmm0, 576(%rsp)
	movdqa	%xmm12, %xmm0
	pcmpgtb	%xmm14, %xmm0
	movdqa	%xmm0, 560(%rsp)
	movdqa	%xmm12, %xmm0
	pcmpgtb	%xmm15, %xmm0
	movdqa	%xmm0, 256(%rsp)
	movdqa	%xmm12, %xmm0
	pcmpgtb	%xmm10, %xmm0
	movdqa	%xmm0, 544(%rsp)
	movdqa	%xmm12, %xmm0
	movdqa	%xmm12, %xmm2
	pcmpgtb	%xmm8, %xmm0
	movdqa	%xmm0, 528(%rsp)
	pcmpeqb	%xmm8, %xmm1
	movdqa	%xmm8, %xmm3
	movdqa	.LCPI12_3(%rip), %xmm8
	movdqa	%xmm14, %xmm0
	pcmpeqb	%xmm8, %xmm0
	movdqa	%xmm0, 496(%rsp)
	movdqa	%xmm15, %xmm0
	pcmpeqb	%xmm8, %xmm0
	movdqa	%xmm0, 512(%rsp)
	movdqa	%xmm10, %xmm0
	pcmpeqb	%xmm8, %xmm0
	movdqa	%xmm0, 480(%rsp)
	pcmpeqb	%xmm3, %xmm8
	movdqa	%xmm14, %xmm0
	pcmpeqb	%xmm7, %xmm0
	movdqa	%xmm0, 112(%rsp)
	movdqa	%xmm15, %xmm0
	pcmpeqb	%xmm7, %xmm0
	movdqa	%xmm0, 80(%rsp)
	movdqa	%xmm10, %xmm13
	pcmpeqb	%xmm7, %xmm13
	pcmpeqb	%xmm3, %xmm7
	movdqa	%xmm7, 96(%rsp)
	movdqa	.LCPI12_6(%rip), %xmm9
	movdqa	%xmm14, %xmm0
	pcmpeqb	%xmm9, %xmm0
	movdqa	%xmm0, 464(%rsp)
	movdqa	%xmm15, %xmm0
	pcmpeqb	%xmm9, %xmm0
	movdqa	%xmm0, 448(%rsp)
	movdqa	%xmm10, %xmm0
	pcmpeqb	%xmm9, %xmm0
	movdqa	%xmm0, 432(%rsp)
	pcmpeqb	%xmm3, %xmm9
	movdqa	%xmm14, 672(%rsp)
	movdqa	%xmm14, 400(%rsp)
	movdqa	.LCPI12_9(%rip), %xmm0
	pand	%xmm0, %xmm14
	movdqa	%xmm15, %xmm5
	movdqa	%xmm15, 384(%rsp)
	pand	%xmm0, %xmm15
	movdqa	%xmm10, %xmm12
	movdqa	%xmm10, 368(%rsp)
	pand	%xmm0, %xmm10
	movdqa	%xmm10, %xmm6
	movdqa	%xmm4, 416(%rsp)
	movdqa	%xmm3, %xmm10
	movdqa	%xmm3, 336(%rsp)
	pand	%xmm0, %xmm3
	pcmpeqb	%xmm2, %xmm3
	movdqa	%xmm3, 352(%rsp)
	pcmpeqb	%xmm2, %xmm6
	movdqa	%xmm6, 320(%rsp)
	pcmpeqb	%xmm2, %xmm15
	pcmpeqb	%xmm2, %xmm14
	movdqa	%xmm2, %xmm7
	pcmpgtb	144(%rsp), %xmm7
	movdqa	%xmm7, %xmm6
	pxor	%xmm1, %xmm7
	movdqa	.LCPI12_2(%rip), %xmm3
	pand	%xmm3, %xmm6
	movdqa	528(%rsp), %xmm0
	pand	%xmm0, %xmm6
	psubusb	%xmm0, %xmm7
	movdqa	48(%rsp), %xmm1
	pand	%xmm3, %xmm1
	movdqa	544(%rsp), %xmm0
	pand	%xmm0, %xmm1
	movdqa	%xmm1, 48(%rsp)
	movdqa	16(%rsp), %xmm2
	psubusb	%xmm0, %xmm2
	movdqa	%xmm2, 16(%rsp)
	movdqa	64(%rsp), %xmm1
	pand	%xmm3, %xmm1
	movdqa	256(%rsp), %xmm0
	pand	%xmm0, %xmm1
	movdqa	%xmm1, 64(%rsp)
	movdqa	128(%rsp), %xmm1
	psubusb	%xmm0, %xmm1
	movdqa	%xmm1, 128(%rsp)
	movdqa	32(%rsp), %xmm0
	pand	%xmm3, %xmm0
	movdqa	560(%rsp), %xmm2
	pand	%xmm2, %xmm0
	movdqa	%xmm0, 32(%rsp)
	movdqa	(%rsp), %xmm1
	psubusb	%xmm2, %xmm1
	movdqa	%xmm1, (%rsp)
	movdqa	.LCPI12_4(%rip), %xmm4
	movdqa	%xmm8, %xmm0
	pand	%xmm4, %xmm0
	movdqa	480(%rsp), %xmm1
	pand	%xmm4, %xmm1
	movdqa	512(%rsp), %xmm2
	pand	%xmm4, %xmm2
	movdqa	496(%rsp), %xmm3
	pand	%xmm4, %xmm3
	movdqa	.LCPI12_5(%rip), %xmm4
	movdqa	96(%rsp), %xmm8
	pand	%xmm4, %xmm8
	por	%xmm0, %xmm8
	movdqa	%xmm8, 96(%rsp)
	pand	%xmm4, %xmm13
	por	%xmm1, %xmm13
	movdqa	80(%rsp), %xmm0
	pand	%xmm4, %xmm0
	por	%xmm2, %xmm0
	movdqa	%xmm0, 80(%rsp)
	movdqa	112(%rsp), %xmm8
	pand	%xmm4, %xmm8
	por	%xmm3, %xmm8
	pcmpeqd	%xmm3, %xmm3
	movdqa	464(%rsp), %xmm11
	pxor	%xmm3, %xmm11
	movdqa	448(%rsp), %xmm1
	pxor	%xmm3, %xmm1
	movdqa	432(%rsp), %xmm2
	pxor	%xmm3, %xmm2
	pxor	%xmm3, %xmm9
	por	%xmm4, %xmm11
	por	%xmm4, %xmm1
	movdqa	%xmm1, %xmm3
	por	%xmm4, %xmm2
	movdqa	%xmm2, %xmm0
	por	%xmm4, %xmm9
	movdqa	.LCPI12_7(%rip), %xmm1
	pcmpeqb	%xmm1, %xmm10
	movdqa	.LCPI12_8(%rip), %xmm2
	pand	%xmm2, %xmm10
	pandn	%xmm9, %xmm10
	pcmpeqb	%xmm1, %xmm12
	pand	%xmm2, %xmm12
	pandn	%xmm0, %xmm12
	pcmpeqb	%xmm1, %xmm5
	pand	%xmm2, %xmm5
	pandn	%xmm3, %xmm5
	movdqa	672(%rsp), %xmm0
	pcmpeqb	%xmm1, %xmm0
	pand	%xmm2, %xmm0
	pandn	%xmm11, %xmm0
	movdqa	272(%rsp), %xmm2
	psubusb	%xmm2, %xmm8
	movdqa	%xmm8, 112(%rsp)
	psubusb	%xmm0, %xmm2
	movdqa	160(%rsp), %xmm9
	movdqa	80(%rsp), %xmm3
	psubusb	%xmm9, %xmm3
	psubusb	%xmm5, %xmm9
	movdqa	592(%rsp), %xmm5
	psubusb	%xmm5, %xmm13
	psubusb	%xmm12, %xmm5
	movdqa	576(%rsp), %xmm11
	movdqa	96(%rsp), %xmm12
	psubusb	%xmm11, %xmm12
	psubusb	%xmm10, %xmm11
	movdqa	336(%rsp), %xmm0
	psubusb	%xmm1, %xmm0
	por	%xmm6, %xmm0
	movdqa	%xmm0, %xmm8
	movdqa	368(%rsp), %xmm0
	psubusb	%xmm1, %xmm0
	por	48(%rsp), %xmm0
	movdqa	%xmm0, %xmm4
	movdqa	384(%rsp), %xmm0
	psubusb	%xmm1, %xmm0
	por	64(%rsp), %xmm0
	movdqa	%xmm0, %xmm10
	movdqa	400(%rsp), %xmm0
	psubusb	%xmm1, %xmm0
	por	32(%rsp), %xmm0
	movdqa	.LCPI12_10(%rip), %xmm1
	movdqa	352(%rsp), %xmm6
	pand	%xmm1, %xmm6
	por	%xmm8, %xmm6
	por	%xmm7, %xmm6
	por	%xmm11, %xmm6
	por	%xmm12, %xmm6
	movdqa	320(%rsp), %xmm7
	pand	%xmm1, %xmm7
	por	%xmm4, %xmm7
	por	16(%rsp), %xmm7
	por	%xmm5, %xmm7
	por	%xmm13, %xmm7
	pand	%xmm1, %xmm15
	por	%xmm10, %xmm15
	por	128(%rsp), %xmm15
	por	%xmm9, %xmm15
	por	%xmm3, %xmm15
	pand	%xmm1, %xmm14
	por	%xmm0, %xmm14
	por	(%rsp), %xmm14
	por	%xmm2, %xmm14
	por	112(%rsp), %xmm14
	movdqa	416(%rsp), %xmm10
	movdqa	%xmm10, %xmm1
	psrldq	$14, %xmm1
	movdqa	144(%rsp), %xmm5
	movdqa	%xmm5, %xmm0
	pslldq	$2, %xmm0
	por	%xmm1, %xmm0
	movdqa	%xmm5, %xmm2
	psrldq	$14, %xmm2
	movdqa	224(%rsp), %xmm13
	movdqa	%xmm13, %xmm1
	pslldq	$2, %xmm1
	por	%xmm2, %xmm1
	movdqa	%xmm10, %xmm3
	pslldq	$2, %xmm3
	movdqa	176(%rsp), %xmm11
	movdqa	%xmm11, %xmm2
	psrldq	$14, %xmm2
	por	%xmm3, %xmm2
	movdqa	%xmm13, %xmm4
	psrldq	$14, %xmm4
	movdqa	240(%rsp), %xmm12
	movdqa	%xmm12, %xmm3
	pslldq	$2, %xmm3
	por	%xmm4, %xmm3
	movdqa	.LCPI12_11(%rip), %xmm4
	psubusb	%xmm4, %xmm3
	psubusb	%xmm4, %xmm2
	psubusb	%xmm4, %xmm1
	psubusb	%xmm4, %xmm0
	movdqa	%xmm10, %xmm4
	psrldq	$13, %xmm4
	movdqa	%xmm5, %xmm8
	pslldq	$3, %xmm8
	por	%xmm4, %xmm8
	psrldq	$13, %xmm5
	movdqa	%xmm13, %xmm9
	pslldq	$3, %xmm9
	por	%xmm5, %xmm9
	pslldq	$3, %xmm10
	psrldq	$13, %xmm11
	por	%xmm10, %xmm11
	psrldq	$13, %xmm13
	movdqa	%xmm12, %xmm5
	pslldq	$3, %xmm5
	por	%xmm13, %xmm5
	movdqa	.LCPI12_12(%rip), %xmm4
	psubusb	%xmm4, %xmm5
	por	%xmm3, %xmm5
	psubusb	%xmm4, %xmm11
	por	%xmm2, %xmm11
	psubusb	%xmm4, %xmm9
	por	%xmm1, %xmm9
	psubusb	%xmm4, %xmm8
	por	%xmm0, %xmm8
	movdqa	.LCPI12_2(%rip), %xmm0
	pand	%xmm0, %xmm5
	pxor	%xmm14, %xmm5
	pand	%xmm0, %xmm11
	pxor	%xmm15, %xmm11
	pand	%xmm0, %xmm9
	pxor	%xmm7, %xmm9
	pand	%xmm0, %xmm8
	movdqa	%xmm12, %xmm0
	psubusb	.LCPI12_13(%rip), %xmm0
	pxor	%xmm6, %xmm8
	por	%xmm5, %xmm0
	movdqa	%xmm0, %xmm1
	movdqa	%xmm11, %xmm0
	jmp	.LBB12_21
	.p2align	4
.LBB12_33:
	addq	$64, %rdx
	cmpq	$64, %rdx
	jb	.LBB12_39
	pxor	%xmm13, %xmm13
	xorl	%ecx, %ecx
	pxor	%xmm1, %xmm1
	pxor	%xmm0, %xmm0
	pxor	%xmm6, %xmm6
	pxor	%xmm7, %xmm7
	pxor	%xmm4, %xmm4
	pxor	%xmm9, %xmm9
	pxor	%xmm14, %xmm14
	pxor	%xmm8, %xmm8
	jmp	.LBB12_37
	.p2align	4
.LBB12_35:
	movdqa	%xmm10, %xmm0
	psrldq	$15, %xmm0
	movdqa	%xmm9, 288(%rsp)
	movdqa	%xmm11, %xmm12
	pslldq	$1, %xmm12
	por	%xmm0, %xmm12
	movdqa	%xmm11, %xmm0
	psrldq	$15, %xmm0
	movdqa	%xmm10, 16(%rsp)
	movdqa	%xmm5, %xmm1
	pslldq	$1, %xmm1
	por	%xmm0, %xmm1
	movdqa	%xmm5, %xmm0
	psrldq	$15, %xmm0
	movdqa	%xmm8, 304(%rsp)
	movdqa	%xmm15, %xmm10
	pslldq	$1, %xmm10
	por	%xmm0, %xmm10
	movdqa	16(%rsp), %xmm0
	pslldq	$1, %xmm0
	movdqa	%xmm4, 208(%rsp)
	movdqa	%xmm13, %xmm9
	movdqa	%xmm13, 560(%rsp)
	psrldq	$15, %xmm9
	por	%xmm0, %xmm9
	movdqa	.LCPI12_0(%rip), %xmm6
	movdqa	16(%rsp), %xmm0
	pand	%xmm6, %xmm0
	movdqa	%xmm0, 32(%rsp)
	movdqa	.LCPI12_1(%rip), %xmm13
	movdqa	%xmm12, %xmm0
	pmaxub	%xmm13, %xmm0
	movdqa	%xmm0, (%rsp)
	movdqa	%xmm1, %xmm0
	pmaxub	%xmm13, %xmm0
	pcmpeqb	%xmm1, %xmm0
	movdqa	%xmm1, %xmm8
	movdqa	%xmm10, %xmm1
	pmaxub	%xmm13, %xmm1
	pcmpeqb	%xmm10, %xmm1
	movdqa	%xmm9, %xmm2
	pmaxub	%xmm13, %xmm2
	pcmpeqb	%xmm9, %xmm2
	movdqa	%xmm13, %xmm7
	movdqa	%xmm14, %xmm4
	movdqa	%xmm13, %xmm14
	movdqa	%xmm13, %xmm3
	pcmpgtb	16(%rsp), %xmm3
	pcmpgtb	%xmm15, %xmm7
	pcmpgtb	%xmm5, %xmm14
	movdqa	%xmm3, 112(%rsp)
	pxor	%xmm2, %xmm3
	movdqa	%xmm3, 48(%rsp)
	movdqa	%xmm7, 80(%rsp)
	pxor	%xmm1, %xmm7
	movdqa	%xmm7, 128(%rsp)
	movdqa	%xmm14, 96(%rsp)
	pxor	%xmm0, %xmm14
	movdqa	%xmm14, 64(%rsp)
	movdqa	%xmm15, %xmm0
	pand	%xmm6, %xmm0
	movdqa	%xmm0, 576(%rsp)
	movdqa	%xmm5, %xmm0
	pand	%xmm6, %xmm0
	movdqa	%xmm0, 272(%rsp)
	movdqa	%xmm11, %xmm0
	pand	%xmm6, %xmm0
	movdqa	%xmm0, 592(%rsp)
	movdqa	%xmm13, %xmm0
	pcmpgtb	%xmm9, %xmm0
	movdqa	%xmm0, 256(%rsp)
	movdqa	%xmm13, %xmm0
	pcmpgtb	%xmm10, %xmm0
	movdqa	%xmm0, 544(%rsp)
	movdqa	%xmm13, %xmm0
	pcmpgtb	%xmm8, %xmm0
	movdqa	%xmm0, 528(%rsp)
	movdqa	%xmm13, %xmm2
	movdqa	%xmm13, %xmm3
	pcmpgtb	%xmm12, %xmm2
	movdqa	(%rsp), %xmm1
	pcmpeqb	%xmm12, %xmm1
	movdqa	.LCPI12_3(%rip), %xmm7
	movdqa	%xmm9, %xmm0
	pcmpeqb	%xmm7, %xmm0
	movdqa	%xmm0, 512(%rsp)
	movdqa	%xmm10, %xmm0
	pcmpeqb	%xmm7, %xmm0
	movdqa	%xmm0, 496(%rsp)
	movdqa	%xmm8, %xmm0
	pcmpeqb	%xmm7, %xmm0
	movdqa	%xmm0, 480(%rsp)
	pcmpeqb	%xmm12, %xmm7
	movdqa	%xmm7, 464(%rsp)
	movdqa	%xmm9, %xmm0
	pcmpeqb	%xmm6, %xmm0
	movdqa	%xmm0, 144(%rsp)
	movdqa	%xmm10, %xmm0
	pcmpeqb	%xmm6, %xmm0
	movdqa	%xmm0, 240(%rsp)
	movdqa	%xmm8, %xmm7
	pcmpeqb	%xmm6, %xmm7
	pcmpeqb	%xmm12, %xmm6
	movdqa	%xmm5, 160(%rsp)
	movdqa	.LCPI12_6(%rip), %xmm14
	movdqa	%xmm9, %xmm0
	pcmpeqb	%xmm14, %xmm0
	movdqa	%xmm0, 224(%rsp)
	movdqa	%xmm10, %xmm0
	pcmpeqb	%xmm14, %xmm0
	movdqa	%xmm0, 448(%rsp)
	movdqa	%xmm15, 176(%rsp)
	movdqa	%xmm8, %xmm0
	pcmpeqb	%xmm14, %xmm0
	movdqa	%xmm0, 432(%rsp)
	pcmpeqb	%xmm12, %xmm14
	movdqa	%xmm11, (%rsp)
	movdqa	%xmm9, 320(%rsp)
	movdqa	%xmm9, 416(%rsp)
	movdqa	.LCPI12_9(%rip), %xmm0
	pand	%xmm0, %xmm9
	movdqa	%xmm10, %xmm13
	movdqa	%xmm10, 400(%rsp)
	pand	%xmm0, %xmm10
	movdqa	%xmm8, %xmm5
	movdqa	%xmm8, %xmm15
	movdqa	%xmm8, 384(%rsp)
	pand	%xmm0, %xmm5
	movdqa	%xmm4, 192(%rsp)
	movdqa	%xmm12, %xmm4
	movdqa	%xmm12, 352(%rsp)
	pand	%xmm0, %xmm4
	pcmpeqb	%xmm3, %xmm4
	movdqa	%xmm4, 368(%rsp)
	pcmpeqb	%xmm3, %xmm5
	movdqa	%xmm5, 336(%rsp)
	pcmpeqb	%xmm3, %xmm10
	pcmpeqb	%xmm3, %xmm9
	movdqa	%xmm3, %xmm5
	pcmpgtb	(%rsp), %xmm5
	movdqa	%xmm5, %xmm8
	pxor	%xmm1, %xmm5
	movdqa	.LCPI12_2(%rip), %xmm3
	pand	%xmm3, %xmm8
	pand	%xmm2, %xmm8
	psubusb	%xmm2, %xmm5
	movdqa	96(%rsp), %xmm1
	pand	%xmm3, %xmm1
	movdqa	528(%rsp), %xmm0
	pand	%xmm0, %xmm1
	movdqa	%xmm1, 96(%rsp)
	movdqa	64(%rsp), %xmm2
	psubusb	%xmm0, %xmm2
	movdqa	%xmm2, 64(%rsp)
	movdqa	80(%rsp), %xmm1
	pand	%xmm3, %xmm1
	movdqa	544(%rsp), %xmm0
	pand	%xmm0, %xmm1
	movdqa	%xmm1, 80(%rsp)
	movdqa	128(%rsp), %xmm1
	psubusb	%xmm0, %xmm1
	movdqa	%xmm1, 128(%rsp)
	movdqa	112(%rsp), %xmm0
	pand	%xmm3, %xmm0
	movdqa	256(%rsp), %xmm2
	pand	%xmm2, %xmm0
	movdqa	%xmm0, 112(%rsp)
	movdqa	48(%rsp), %xmm1
	psubusb	%xmm2, %xmm1
	movdqa	%xmm1, 48(%rsp)
	movdqa	.LCPI12_4(%rip), %xmm4
	movdqa	464(%rsp), %xmm0
	pand	%xmm4, %xmm0
	movdqa	480(%rsp), %xmm1
	pand	%xmm4, %xmm1
	movdqa	496(%rsp), %xmm2
	pand	%xmm4, %xmm2
	movdqa	512(%rsp), %xmm3
	pand	%xmm4, %xmm3
	movdqa	.LCPI12_5(%rip), %xmm4
	pand	%xmm4, %xmm6
	por	%xmm0, %xmm6
	pand	%xmm4, %xmm7
	por	%xmm1, %xmm7
	movdqa	%xmm7, 256(%rsp)
	movdqa	240(%rsp), %xmm0
	pand	%xmm4, %xmm0
	por	%xmm2, %xmm0
	movdqa	%xmm0, 240(%rsp)
	movdqa	144(%rsp), %xmm7
	pand	%xmm4, %xmm7
	por	%xmm3, %xmm7
	pcmpeqd	%xmm2, %xmm2
	movdqa	224(%rsp), %xmm0
	pxor	%xmm2, %xmm0
	por	%xmm4, %xmm0
	movdqa	%xmm0, 224(%rsp)
	movdqa	448(%rsp), %xmm11
	pxor	%xmm2, %xmm11
	por	%xmm4, %xmm11
	movdqa	432(%rsp), %xmm0
	pxor	%xmm2, %xmm0
	por	%xmm4, %xmm0
	pxor	%xmm2, %xmm14
	por	%xmm4, %xmm14
	movdqa	.LCPI12_7(%rip), %xmm3
	pcmpeqb	%xmm3, %xmm12
	movdqa	.LCPI12_8(%rip), %xmm2
	pand	%xmm2, %xmm12
	pandn	%xmm14, %xmm12
	pcmpeqb	%xmm3, %xmm15
	pand	%xmm2, %xmm15
	pandn	%xmm0, %xmm15
	pcmpeqb	%xmm3, %xmm13
	pand	%xmm2, %xmm13
	pandn	%xmm11, %xmm13
	movdqa	320(%rsp), %xmm0
	pcmpeqb	%xmm3, %xmm0
	pand	%xmm2, %xmm0
	pandn	224(%rsp), %xmm0
	movdqa	32(%rsp), %xmm1
	psubusb	%xmm1, %xmm7
	movdqa	%xmm7, 144(%rsp)
	psubusb	%xmm0, %xmm1
	movdqa	%xmm1, 32(%rsp)
	movdqa	576(%rsp), %xmm11
	movdqa	240(%rsp), %xmm2
	psubusb	%xmm11, %xmm2
	psubusb	%xmm13, %xmm11
	movdqa	272(%rsp), %xmm13
	movdqa	256(%rsp), %xmm1
	psubusb	%xmm13, %xmm1
	psubusb	%xmm15, %xmm13
	movdqa	592(%rsp), %xmm14
	psubusb	%xmm14, %xmm6
	psubusb	%xmm12, %xmm14
	movdqa	352(%rsp), %xmm0
	psubusb	%xmm3, %xmm0
	por	%xmm8, %xmm0
	movdqa	%xmm0, %xmm8
	movdqa	384(%rsp), %xmm0
	psubusb	%xmm3, %xmm0
	por	96(%rsp), %xmm0
	movdqa	%xmm0, %xmm7
	movdqa	400(%rsp), %xmm0
	psubusb	%xmm3, %xmm0
	por	80(%rsp), %xmm0
	movdqa	%xmm0, %xmm4
	movdqa	416(%rsp), %xmm0
	psubusb	%xmm3, %xmm0
	por	112(%rsp), %xmm0
	movdqa	%xmm0, %xmm3
	movdqa	.LCPI12_10(%rip), %xmm15
	movdqa	368(%rsp), %xmm12
	pand	%xmm15, %xmm12
	por	%xmm8, %xmm12
	por	%xmm5, %xmm12
	por	%xmm14, %xmm12
	por	%xmm6, %xmm12
	movdqa	336(%rsp), %xmm0
	pand	%xmm15, %xmm0
	por	%xmm7, %xmm0
	por	64(%rsp), %xmm0
	por	%xmm13, %xmm0
	por	%xmm1, %xmm0
	movdqa	%xmm0, %xmm13
	pand	%xmm15, %xmm10
	por	%xmm4, %xmm10
	por	128(%rsp), %xmm10
	por	%xmm11, %xmm10
	por	%xmm2, %xmm10
	pand	%xmm15, %xmm9
	por	%xmm3, %xmm9
	por	48(%rsp), %xmm9
	por	32(%rsp), %xmm9
	por	144(%rsp), %xmm9
	movdqa	16(%rsp), %xmm0
	psrldq	$14, %xmm0
	movdqa	(%rsp), %xmm1
	pslldq	$2, %xmm1
	por	%xmm0, %xmm1
	movdqa	(%rsp), %xmm0
	psrldq	$14, %xmm0
	movdqa	160(%rsp), %xmm8
	movdqa	%xmm8, %xmm2
	pslldq	$2, %xmm2
	por	%xmm0, %xmm2
	movdqa	%xmm8, %xmm0
	psrldq	$14, %xmm0
	movdqa	176(%rsp), %xmm15
	movdqa	%xmm15, %xmm3
	pslldq	$2, %xmm3
	por	%xmm0, %xmm3
	movdqa	16(%rsp), %xmm0
	pslldq	$2, %xmm0
	movdqa	560(%rsp), %xmm4
	movdqa	%xmm4, %xmm5
	psrldq	$14, %xmm5
	por	%xmm0, %xmm5
	movdqa	.LCPI12_11(%rip), %xmm0
	psubusb	%xmm0, %xmm5
	psubusb	%xmm0, %xmm3
	psubusb	%xmm0, %xmm2
	psubusb	%xmm0, %xmm1
	movdqa	16(%rsp), %xmm6
	psrldq	$13, %xmm6
	movdqa	(%rsp), %xmm0
	pslldq	$3, %xmm0
	por	%xmm6, %xmm0
	movdqa	(%rsp), %xmm7
	psrldq	$13, %xmm7
	movdqa	%xmm8, %xmm6
	pslldq	$3, %xmm6
	por	%xmm7, %xmm6
	movdqa	%xmm8, %xmm11
	psrldq	$13, %xmm11
	movdqa	%xmm15, %xmm7
	pslldq	$3, %xmm7
	por	%xmm11, %xmm7
	movdqa	16(%rsp), %xmm11
	pslldq	$3, %xmm11
	psrldq	$13, %xmm4
	por	%xmm11, %xmm4
	movdqa	.LCPI12_12(%rip), %xmm11
	psubusb	%xmm11, %xmm4
	por	%xmm5, %xmm4
	movdqa	192(%rsp), %xmm14
	psubusb	%xmm11, %xmm7
	por	%xmm3, %xmm7
	psubusb	%xmm11, %xmm6
	por	%xmm2, %xmm6
	psubusb	%xmm11, %xmm0
	movdqa	%xmm8, %xmm5
	movdqa	(%rsp), %xmm2
	por	%xmm1, %xmm0
	movdqa	.LCPI12_2(%rip), %xmm3
	pand	%xmm3, %xmm4
	pxor	%xmm9, %xmm4
	movdqa	%xmm4, %xmm1
	movdqa	208(%rsp), %xmm4
	pand	%xmm3, %xmm7
	pxor	%xmm10, %xmm7
	movdqa	304(%rsp), %xmm8
	pand	%xmm3, %xmm6
	movdqa	%xmm3, %xmm9
	pxor	%xmm13, %xmm6
	movdqa	16(%rsp), %xmm3
	pand	%xmm9, %xmm0
	pxor	%xmm12, %xmm0
	movdqa	288(%rsp), %xmm9
	pcmpeqd	%xmm10, %xmm10
	psubusb	%xmm10, %xmm3
	psubusb	%xmm10, %xmm2
	psubusb	%xmm10, %xmm5
	movdqa	%xmm15, %xmm10
	psubusb	.LCPI12_13(%rip), %xmm10
.LBB12_36:
	por	%xmm7, %xmm8
	por	%xmm6, %xmm14
	por	%xmm0, %xmm9
	por	%xmm1, %xmm4
	addq	$64, %rcx
	addq	$-64, %rax
	movdqa	%xmm15, %xmm13
	movdqa	%xmm3, %xmm1
	movdqa	%xmm2, %xmm0
	movdqa	%xmm5, %xmm6
	movdqa	%xmm10, %xmm7
	cmpq	$63, %rax
	jbe	.LBB12_40
.LBB12_37:
	movdqu	(%rsi,%rcx), %xmm10
	movdqu	16(%rsi,%rcx), %xmm11
	movdqu	32(%rsi,%rcx), %xmm5
	movdqu	48(%rsi,%rcx), %xmm12
	movdqa	%xmm11, %xmm2
	por	%xmm10, %xmm2
	movdqa	%xmm5, %xmm3
	movdqa	%xmm12, %xmm15
	por	%xmm12, %xmm3
	por	%xmm2, %xmm3
	pmovmskb	%xmm3, %edi
	testl	%edi, %edi
	jne	.LBB12_35
	pxor	%xmm3, %xmm3
	pxor	%xmm2, %xmm2
	pxor	%xmm5, %xmm5
	pxor	%xmm10, %xmm10
	jmp	.LBB12_36
.LBB12_39:
	xorl	%ecx, %ecx
	pxor	%xmm0, %xmm0
	movdqa	%xmm0, 208(%rsp)
	jmp	.LBB12_30
.LBB12_40:
	movdqa	%xmm10, 32(%rsp)
	movdqa	%xmm3, 16(%rsp)
	movdqa	%xmm5, 160(%rsp)
	movdqa	%xmm2, (%rsp)
	movdqa	%xmm15, 176(%rsp)
	movdqa	%xmm9, 288(%rsp)
	movdqa	%xmm8, 304(%rsp)
	movdqa	%xmm14, 192(%rsp)
	movdqa	%xmm4, 208(%rsp)
	jmp	.LBB12_31
.LBB12_41:
	pxor	%xmm0, %xmm0
	movdqa	%xmm0, 608(%rsp)
	movq	$0, 624(%rsp)
	addq	%r14, %r13
	leaq	608(%rsp), %rdi
	movq	%r13, %rsi
	movq	%r12, %rdx
	callq	"core::str::utf8::from_utf8"
	cmpb	$0, 608(%rsp)
	je	.LBB12_44
	xorl	%r14d, %r14d
	xorl	%r15d, %r15d
	xorl	%eax, %eax
	jmp	.LBB12_45
.LBB12_44:
	movl	$1, %eax
.LBB12_45:
	movq	%rax, (%rbx)
	movq	%r14, 8(%rbx)
	movq	%r15, 16(%rbx)
.LBB12_46:
	addq	$712, %rsp
	popq	%rbx
	popq	%r12
	popq	%r13
	popq	%r14
	popq	%r15
	popq	%rbp
	retq
.Lfunc_end12:
	.size	"unftp_control_message::utf8::long_text", .Lfunc_end12-"unftp_control_message::utf8::long_text"

	.section	".text.simdutf8::last_block","ax",@progbits
	.p2align	4
	.type	"simdutf8::last_block",@function
"simdutf8::last_block":
	pushq	%rbp
	movq	%rsp, %rbp
	pushq	%rbx
	andq	$-64, %rsp
	subq	$128, %rsp
	movq	%rdi, %rbx
	addq	%rcx, %rsi
	subq	%rcx, %rdx
	xorps	%xmm0, %xmm0
	movaps	%xmm0, 48(%rsp)
	movaps	%xmm0, 32(%rsp)
	movaps	%xmm0, 16(%rsp)
	movaps	%xmm0, (%rsp)
	movq	%rsp, %rdi
	callq	memcpy@PLT
	movaps	(%rsp), %xmm0
	movaps	16(%rsp), %xmm1
	movaps	32(%rsp), %xmm2
	movaps	48(%rsp), %xmm3
	movups	%xmm2, 32(%rbx)
	movups	%xmm3, 48(%rbx)
	movups	%xmm0, (%rbx)
	movups	%xmm1, 16(%rbx)
	leaq	-8(%rbp), %rsp
	popq	%rbx
	popq	%rbp
	retq
.Lfunc_end13:
	.size	"simdutf8::last_block", .Lfunc_end13-"simdutf8::last_block"

	.section	.rodata.cst16,"aM",@progbits,16
	.p2align	4, 0x0
.LCPI14_0:
	.zero	1
	.zero	1
	.zero	1
	.zero	1
	.zero	1
	.zero	1
	.byte	56
	.byte	56
	.zero	1
	.zero	1
	.zero	1
	.zero	1
	.zero	1
	.zero	1
	.zero	1
	.zero	1
	.section	".text.unftp_control_codecs::line_parser::typed::typed_bytes","ax",@progbits
	.p2align	4
	.type	"unftp_control_codecs::line_parser::typed::typed_bytes",@function
"unftp_control_codecs::line_parser::typed::typed_bytes":
	pushq	%r15
	pushq	%r14
	pushq	%rbx
	subq	$96, %rsp
	pxor	%xmm0, %xmm0
	movdqa	%xmm0, (%rsp)
	movb	$1, %bl
	movzbl	%sil, %eax
	leaq	.LJTI14_0(%rip), %rsi
	movslq	(%rsi,%rax,4), %rax
	addq	%rsi, %rax
	jmpq	*%rax
.LBB14_1:
	xorl	%ecx, %ecx
	xorl	%eax, %eax
.LBB14_2:
	xorl	%edx, %edx
.LBB14_3:
	xorl	%r8d, %r8d
.LBB14_4:
	xorl	%r9d, %r9d
.LBB14_5:
	xorl	%esi, %esi
.LBB14_6:
	movb	%bl, (%rdi)
	movb	%cl, 1(%rdi)
	movb	%al, 8(%rdi)
	movb	%dl, 9(%rdi)
	movb	%r8b, 10(%rdi)
	movb	%r9b, 11(%rdi)
	movq	%rsi, 16(%rdi)
	movaps	(%rsp), %xmm0
	movups	%xmm0, 24(%rdi)
	addq	$96, %rsp
	popq	%rbx
	popq	%r14
	popq	%r15
	retq
.LBB14_7:
	cmpq	$1, %rcx
	jne	.LBB14_1
	movzbl	(%rdx), %eax
	xorl	%esi, %esi
	xorl	%ecx, %ecx
	addl	$-67, %eax
	cmpl	$16, %eax
	ja	.LBB14_79
	leaq	.LJTI14_1(%rip), %rdx
	movslq	(%rdx,%rax,4), %r10
	addq	%rdx, %r10
	xorl	%eax, %eax
	xorl	%edx, %edx
	xorl	%r8d, %r8d
	xorl	%r9d, %r9d
	jmpq	*%r10
.LBB14_10:
	movb	$2, %dl
	jmp	.LBB14_57
.LBB14_11:
	cmpq	$7, %rcx
	je	.LBB14_40
	cmpq	$8, %rcx
	jne	.LBB14_1
	movl	(%rdx), %eax
	cmpl	$944133205, %eax
	je	.LBB14_49
	movd	%eax, %xmm0
	movzbl	(%rdx), %eax
	movdqa	%xmm0, 64(%rsp)
	psllq	$24, %xmm0
	pcmpeqb	.LCPI14_0(%rip), %xmm0
	pcmpeqd	%xmm1, %xmm1
	pxor	%xmm0, %xmm1
	xorb	$117, %al
	movzbl	65(%rsp), %ecx
	movzbl	66(%rsp), %esi
	xorb	$116, %cl
	orb	%al, %cl
	xorb	$102, %sil
	orb	%cl, %sil
	setne	%al
	pextrw	$3, %xmm1, %ecx
	orb	%al, %cl
	testb	$1, %cl
	jne	.LBB14_1
	movq	%rdi, %r14
	leaq	.Lstatic.53(%rip), %rdi
	jmp	.LBB14_50
.LBB14_16:
	cmpq	$1, %rcx
	jne	.LBB14_1
	movzbl	(%rdx), %eax
	cmpl	$83, %eax
	je	.LBB14_56
	cmpl	$67, %eax
	je	.LBB14_55
	cmpl	$66, %eax
	jne	.LBB14_1
	movb	$1, %dl
	movb	$4, %al
	xorl	%ebx, %ebx
	xorl	%ecx, %ecx
	movb	$1, %r8b
	jmp	.LBB14_4
.LBB14_21:
	movq	%rdi, %r14
	movdqa	%xmm0, 16(%rsp)
	movq	$0, 32(%rsp)
	movdqa	%xmm0, 80(%rsp)
	leaq	16(%rsp), %rdi
	movq	%rdx, %rsi
	movq	%rcx, %rdx
	callq	"core::str::utf8::from_utf8"
	cmpb	$0, 16(%rsp)
	je	.LBB14_36
	pxor	%xmm0, %xmm0
	movdqa	%xmm0, (%rsp)
	movb	$1, %bl
	xorl	%eax, %eax
	xorl	%esi, %esi
	movq	%r14, %rdi
	jmp	.LBB14_91
.LBB14_23:
	cmpq	$1, %rcx
	jne	.LBB14_1
	movzbl	(%rdx), %eax
	cmpl	$70, %eax
	je	.LBB14_60
	cmpl	$80, %eax
	je	.LBB14_58
	cmpl	$82, %eax
	jne	.LBB14_1
	movb	$1, %r8b
	jmp	.LBB14_59
.LBB14_28:
	movdqa	%xmm0, 16(%rsp)
	movq	$0, 32(%rsp)
	cmpq	$4, %rcx
	jae	.LBB14_85
	movq	%rdi, %r14
	leaq	16(%rsp), %rdi
	movq	%rdx, %rbx
	movq	%rdx, %rsi
	movq	%rcx, %r15
	movq	%rcx, %rdx
	callq	"core::str::utf8::from_utf8"
	cmpb	$0, 16(%rsp)
	je	.LBB14_43
	pxor	%xmm0, %xmm0
	movdqa	%xmm0, (%rsp)
	movb	$1, %bl
	xorl	%eax, %eax
	movb	$1, %cl
	xorl	%edx, %edx
	xorl	%r8d, %r8d
	movq	%r14, %rdi
	jmp	.LBB14_4
.LBB14_31:
	movdqa	%xmm0, 16(%rsp)
	movb	$1, %bl
	cmpq	$1, %rcx
	jne	.LBB14_34
	cmpb	$48, (%rdx)
	jne	.LBB14_34
	movb	$5, %dl
	movb	$4, %al
	xorl	%ebx, %ebx
	jmp	.LBB14_35
.LBB14_34:
	xorl	%eax, %eax
	xorl	%edx, %edx
.LBB14_35:
	movdqa	16(%rsp), %xmm0
	movdqa	%xmm0, (%rsp)
	xorl	%ecx, %ecx
	jmp	.LBB14_3
.LBB14_36:
	movq	32(%rsp), %rcx
	movb	$1, %bl
	testq	%rcx, %rcx
	je	.LBB14_48
	movq	24(%rsp), %rdx
	cmpb	$43, (%rdx)
	jne	.LBB14_61
	cmpq	$1, %rcx
	movq	%r14, %rdi
	jne	.LBB14_73
.LBB14_39:
	xorl	%eax, %eax
.LBB14_89:
	xorl	%esi, %esi
	jmp	.LBB14_90
.LBB14_40:
	movl	(%rdx), %eax
	cmpl	$944133205, %eax
	je	.LBB14_51
	movd	%eax, %xmm0
	movzbl	(%rdx), %eax
	movdqa	%xmm0, 48(%rsp)
	psllq	$24, %xmm0
	pcmpeqb	.LCPI14_0(%rip), %xmm0
	pcmpeqd	%xmm1, %xmm1
	pxor	%xmm0, %xmm1
	xorb	$117, %al
	movzbl	49(%rsp), %ecx
	movzbl	50(%rsp), %esi
	xorb	$116, %cl
	orb	%al, %cl
	xorb	$102, %sil
	orb	%cl, %sil
	setne	%al
	pextrw	$3, %xmm1, %ecx
	orb	%al, %cl
	testb	$1, %cl
	jne	.LBB14_1
	movq	%rdi, %r14
	leaq	.Lstatic.51(%rip), %rdi
	jmp	.LBB14_52
.LBB14_43:
	cmpq	$3, %r15
	movq	%r14, %rdi
	jne	.LBB14_84
	movq	%rbx, %rax
	movzbl	(%rbx), %edx
	leal	-65(%rdx), %ecx
	leal	32(%rdx), %esi
	cmpb	$26, %cl
	movzbl	%sil, %ecx
	cmovael	%edx, %ecx
	cmpb	$115, %cl
	je	.LBB14_80
	movzbl	%cl, %ecx
	cmpl	$116, %ecx
	jne	.LBB14_84
	movzbl	1(%rax), %ecx
	leal	-65(%rcx), %edx
	leal	32(%rcx), %esi
	cmpb	$26, %dl
	movzbl	%sil, %edx
	cmovael	%ecx, %edx
	cmpb	$108, %dl
	jne	.LBB14_84
	movzbl	2(%rax), %eax
	leal	-65(%rax), %ecx
	leal	32(%rax), %edx
	cmpb	$26, %cl
	movzbl	%dl, %ecx
	cmovael	%eax, %ecx
	movb	$1, %r8b
	cmpb	$115, %cl
	je	.LBB14_83
	jmp	.LBB14_84
.LBB14_48:
	xorl	%eax, %eax
	xorl	%esi, %esi
	movq	%r14, %rdi
	jmp	.LBB14_90
.LBB14_49:
	movq	%rdi, %r14
	leaq	.Lstatic.52(%rip), %rdi
.LBB14_50:
	movl	$8, %esi
	callq	"core::cmp::slices::groups_equal::<i8,31'core::cmp::numbers::U8PartialEq{}>"
	xorl	%ecx, %ecx
	testb	%al, %al
	jne	.LBB14_54
	jmp	.LBB14_67
.LBB14_51:
	movq	%rdi, %r14
	leaq	.Lstatic.50(%rip), %rdi
.LBB14_52:
	movl	$7, %esi
	callq	"core::cmp::slices::groups_equal::<i8,31'core::cmp::numbers::U8PartialEq{}>"
	movb	$1, %bl
	testb	%al, %al
	je	.LBB14_66
	movb	$1, %cl
.LBB14_54:
	movq	%r14, %rdi
	movl	%ecx, %r9d
	movb	$4, %al
	xorl	%ebx, %ebx
	xorl	%ecx, %ecx
	movb	$4, %dl
	xorl	%r8d, %r8d
	jmp	.LBB14_5
.LBB14_55:
	movb	$2, %r8b
	movb	$1, %dl
	jmp	.LBB14_72
.LBB14_56:
	movb	$1, %dl
.LBB14_57:
	movb	$4, %al
	xorl	%ebx, %ebx
	xorl	%ecx, %ecx
	jmp	.LBB14_3
.LBB14_58:
	movb	$2, %r8b
.LBB14_59:
	movb	$4, %al
	xorl	%ebx, %ebx
	xorl	%ecx, %ecx
	xorl	%edx, %edx
	jmp	.LBB14_4
.LBB14_60:
	movb	$4, %al
	xorl	%ebx, %ebx
	xorl	%ecx, %ecx
	jmp	.LBB14_2
.LBB14_61:
	movabsq	$1844674407370955162, %r8
	xorl	%esi, %esi
	xorl	%r9d, %r9d
	movq	%r14, %rdi
.LBB14_62:
	xorl	%eax, %eax
	cmpq	%r8, %rsi
	jae	.LBB14_89
	movzbl	(%rdx,%r9), %r10d
	leal	-48(%r10), %r11d
	cmpb	$9, %r11b
	ja	.LBB14_89
	addq	%rsi, %rsi
	leaq	(%rsi,%rsi,4), %rax
	andl	$15, %r10d
	movq	%r10, %rsi
	addq	%rax, %rsi
	jb	.LBB14_39
	incq	%r9
	cmpq	%r9, %rcx
	jne	.LBB14_62
	jmp	.LBB14_78
.LBB14_66:
	xorl	%ecx, %ecx
.LBB14_67:
	xorl	%eax, %eax
	xorl	%edx, %edx
	xorl	%r8d, %r8d
	xorl	%r9d, %r9d
	xorl	%esi, %esi
	movq	%r14, %rdi
	jmp	.LBB14_6
.LBB14_68:
	movb	$3, %r8b
	jmp	.LBB14_71
.LBB14_69:
	movb	$2, %dl
	movb	$4, %al
	xorl	%ebx, %ebx
	xorl	%ecx, %ecx
	movb	$2, %r8b
	jmp	.LBB14_4
.LBB14_70:
	movb	$1, %r8b
.LBB14_71:
	movb	$2, %dl
.LBB14_72:
	movb	$4, %al
	xorl	%ebx, %ebx
	xorl	%ecx, %ecx
	jmp	.LBB14_4
.LBB14_73:
	movl	$1, %r8d
	movabsq	$1844674407370955162, %r9
	xorl	%esi, %esi
.LBB14_74:
	xorl	%eax, %eax
	cmpq	%r9, %rsi
	jae	.LBB14_89
	movzbl	(%rdx,%r8), %r10d
	leal	-48(%r10), %r11d
	cmpb	$9, %r11b
	ja	.LBB14_89
	addq	%rsi, %rsi
	leaq	(%rsi,%rsi,4), %rax
	andl	$15, %r10d
	movq	%r10, %rsi
	addq	%rax, %rsi
	jb	.LBB14_39
	incq	%r8
	cmpq	%r8, %rcx
	jne	.LBB14_74
.LBB14_78:
	pxor	%xmm0, %xmm0
	movdqa	%xmm0, 80(%rsp)
	movb	$5, %al
	xorl	%ebx, %ebx
.LBB14_90:
	movdqa	80(%rsp), %xmm0
	movdqa	%xmm0, (%rsp)
.LBB14_91:
	xorl	%ecx, %ecx
.LBB14_92:
	xorl	%edx, %edx
	xorl	%r8d, %r8d
	xorl	%r9d, %r9d
	jmp	.LBB14_6
.LBB14_79:
	xorl	%eax, %eax
	jmp	.LBB14_92
.LBB14_80:
	movzbl	1(%rax), %ecx
	leal	-65(%rcx), %edx
	leal	32(%rcx), %esi
	cmpb	$26, %dl
	movzbl	%sil, %edx
	cmovael	%ecx, %edx
	cmpb	$115, %dl
	jne	.LBB14_84
	movzbl	2(%rax), %eax
	leal	-65(%rax), %ecx
	leal	32(%rax), %edx
	cmpb	$26, %cl
	movzbl	%dl, %ecx
	cmovael	%eax, %ecx
	cmpb	$108, %cl
	jne	.LBB14_84
	xorl	%r8d, %r8d
.LBB14_83:
	pxor	%xmm0, %xmm0
	movdqa	%xmm0, (%rsp)
	movb	$3, %dl
	jmp	.LBB14_72
.LBB14_84:
	pxor	%xmm0, %xmm0
.LBB14_85:
	movdqa	%xmm0, (%rsp)
	movb	$1, %bl
	jmp	.LBB14_1
.Lfunc_end14:
	.size	"unftp_control_codecs::line_parser::typed::typed_bytes", .Lfunc_end14-"unftp_control_codecs::line_parser::typed::typed_bytes"
	.section	".rodata.unftp_control_codecs::line_parser::typed::typed_bytes","a",@progbits
	.p2align	2, 0x0
.LJTI14_0:
	.long	.LBB14_1-.LJTI14_0
	.long	.LBB14_1-.LJTI14_0
	.long	.LBB14_1-.LJTI14_0
	.long	.LBB14_1-.LJTI14_0
	.long	.LBB14_1-.LJTI14_0
	.long	.LBB14_1-.LJTI14_0
	.long	.LBB14_23-.LJTI14_0
	.long	.LBB14_16-.LJTI14_0
	.long	.LBB14_1-.LJTI14_0
	.long	.LBB14_1-.LJTI14_0
	.long	.LBB14_1-.LJTI14_0
	.long	.LBB14_1-.LJTI14_0
	.long	.LBB14_1-.LJTI14_0
	.long	.LBB14_1-.LJTI14_0
	.long	.LBB14_1-.LJTI14_0
	.long	.LBB14_1-.LJTI14_0
	.long	.LBB14_1-.LJTI14_0
	.long	.LBB14_1-.LJTI14_0
	.long	.LBB14_1-.LJTI14_0
	.long	.LBB14_1-.LJTI14_0
	.long	.LBB14_1-.LJTI14_0
	.long	.LBB14_1-.LJTI14_0
	.long	.LBB14_1-.LJTI14_0
	.long	.LBB14_1-.LJTI14_0
	.long	.LBB14_11-.LJTI14_0
	.long	.LBB14_1-.LJTI14_0
	.long	.LBB14_1-.LJTI14_0
	.long	.LBB14_1-.LJTI14_0
	.long	.LBB14_1-.LJTI14_0
	.long	.LBB14_1-.LJTI14_0
	.long	.LBB14_1-.LJTI14_0
	.long	.LBB14_1-.LJTI14_0
	.long	.LBB14_1-.LJTI14_0
	.long	.LBB14_1-.LJTI14_0
	.long	.LBB14_28-.LJTI14_0
	.long	.LBB14_1-.LJTI14_0
	.long	.LBB14_31-.LJTI14_0
	.long	.LBB14_7-.LJTI14_0
	.long	.LBB14_1-.LJTI14_0
	.long	.LBB14_21-.LJTI14_0
	.long	.LBB14_1-.LJTI14_0
	.long	.LBB14_1-.LJTI14_0
	.long	.LBB14_1-.LJTI14_0
	.long	.LBB14_1-.LJTI14_0
.LJTI14_1:
	.long	.LBB14_10-.LJTI14_1
	.long	.LBB14_6-.LJTI14_1
	.long	.LBB14_69-.LJTI14_1
	.long	.LBB14_6-.LJTI14_1
	.long	.LBB14_6-.LJTI14_1
	.long	.LBB14_6-.LJTI14_1
	.long	.LBB14_6-.LJTI14_1
	.long	.LBB14_6-.LJTI14_1
	.long	.LBB14_6-.LJTI14_1
	.long	.LBB14_6-.LJTI14_1
	.long	.LBB14_6-.LJTI14_1
	.long	.LBB14_6-.LJTI14_1
	.long	.LBB14_6-.LJTI14_1
	.long	.LBB14_68-.LJTI14_1
	.long	.LBB14_6-.LJTI14_1
	.long	.LBB14_6-.LJTI14_1
	.long	.LBB14_70-.LJTI14_1

	.section	".text.unftp_control_message::sent::Sent::to_bytes","ax",@progbits
	.p2align	4
	.type	"unftp_control_message::sent::Sent::to_bytes",@function
"unftp_control_message::sent::Sent::to_bytes":
	pushq	%rbp
	pushq	%r15
	pushq	%r14
	pushq	%r13
	pushq	%r12
	pushq	%rbx
	subq	$40, %rsp
	movq	%rsi, %rax
	movq	%rdi, %rbx
	movzbl	(%rsi), %ecx
	movq	8(%rsi), %rsi
	movq	16(%rax), %r14
	xorps	%xmm0, %xmm0
	movaps	%xmm0, 16(%rsp)
	movaps	%xmm0, (%rsp)
	testq	%r14, %r14
	je	.LBB15_4
	testb	%cl, %cl
	je	.LBB15_5
	movq	%rsp, %rdi
	movq	%r14, %rdx
	callq	"unftp_control_message::sent::unescape"
	cmpb	$0, (%rsp)
	je	.LBB15_10
.LBB15_3:
	movb	$1, (%rbx)
	xorps	%xmm0, %xmm0
	movups	%xmm0, 8(%rbx)
	movups	%xmm0, 24(%rbx)
	movq	$0, 40(%rbx)
	jmp	.LBB15_41
.LBB15_4:
	movb	$0, (%rbx)
	leaq	.Lstatic.2(%rip), %rax
	movq	%rax, 8(%rbx)
	movups	%xmm0, 16(%rbx)
	movups	%xmm0, 32(%rbx)
	jmp	.LBB15_41
.LBB15_5:
	movb	$1, %r12b
	testq	%r14, %r14
	js	.LBB15_38
	movq	%rsi, %rbp
	movl	$1, %esi
	movq	%r14, %rdi
	callq	rattle_alloc@PLT
	xorl	%r13d, %r13d
	testb	$1, %al
	je	.LBB15_39
	movq	%rdx, %r15
	movq	%rdx, %rax
	movq	%rbp, %rsi
	subq	%rbp, %rax
	cmpq	%r14, %rax
	jae	.LBB15_18
	cmpq	$4, %r14
	setb	%al
	movq	%r15, %rcx
	subq	%rsi, %rcx
	cmpq	$32, %rcx
	setb	%cl
	orb	%al, %cl
	je	.LBB15_20
	xorl	%eax, %eax
	jmp	.LBB15_29
.LBB15_10:
	movq	8(%rsp), %r15
	movq	16(%rsp), %r14
	movq	24(%rsp), %r12
	testq	%r14, %r14
	je	.LBB15_14
	movl	$32, %edi
	movl	$8, %esi
	callq	rattle_alloc@PLT
	testb	$1, %al
	je	.LBB15_16
	movq	$1, (%rdx)
	movq	%r15, 8(%rdx)
	movq	%r14, 16(%rdx)
	movq	%r12, 24(%rdx)
	jmp	.LBB15_36
.LBB15_14:
	leaq	.Lstatic.2(%rip), %r13
	testq	%r12, %r12
	je	.LBB15_19
	movq	%r15, %rdi
	callq	rattle_dealloc@PLT
	xorl	%r12d, %r12d
	jmp	.LBB15_39
.LBB15_16:
	testq	%r12, %r12
	je	.LBB15_3
	movq	%r15, %rdi
	callq	rattle_dealloc@PLT
	jmp	.LBB15_3
.LBB15_18:
	movq	%r15, %rdi
	movq	%r14, %rdx
	callq	memmove@PLT
	jmp	.LBB15_34
.LBB15_19:
	xorl	%r12d, %r12d
	jmp	.LBB15_39
.LBB15_20:
	movabsq	$9223372036854775776, %rcx
	cmpq	$32, %r14
	jae	.LBB15_22
	xorl	%eax, %eax
	jmp	.LBB15_26
.LBB15_22:
	movq	%r14, %rax
	andq	%rcx, %rax
	xorl	%edx, %edx
	.p2align	4
.LBB15_23:
	movups	(%rsi,%rdx), %xmm0
	movups	16(%rsi,%rdx), %xmm1
	movups	%xmm0, (%r15,%rdx)
	movups	%xmm1, 16(%r15,%rdx)
	addq	$32, %rdx
	cmpq	%rdx, %rax
	jne	.LBB15_23
	cmpq	%rax, %r14
	je	.LBB15_34
	testb	$28, %r14b
	je	.LBB15_29
.LBB15_26:
	movq	%rax, %rdx
	addq	$28, %rcx
	movq	%rcx, %rax
	andq	%r14, %rax
	.p2align	4
.LBB15_27:
	movl	(%rsi,%rdx), %ecx
	movl	%ecx, (%r15,%rdx)
	addq	$4, %rdx
	cmpq	%rdx, %rax
	jne	.LBB15_27
	cmpq	%rax, %r14
	je	.LBB15_34
.LBB15_29:
	movq	%r14, %rdx
	movq	%rax, %rcx
	andq	$3, %rdx
	je	.LBB15_32
	movq	%rax, %rcx
	.p2align	4
.LBB15_31:
	movzbl	(%rsi,%rcx), %edi
	movb	%dil, (%r15,%rcx)
	incq	%rcx
	decq	%rdx
	jne	.LBB15_31
.LBB15_32:
	subq	%r14, %rax
	cmpq	$-4, %rax
	ja	.LBB15_34
	.p2align	4
.LBB15_33:
	movzbl	(%rsi,%rcx), %eax
	movb	%al, (%r15,%rcx)
	movzbl	1(%rsi,%rcx), %eax
	movb	%al, 1(%r15,%rcx)
	movzbl	2(%rsi,%rcx), %eax
	movb	%al, 2(%r15,%rcx)
	movzbl	3(%rsi,%rcx), %eax
	movb	%al, 3(%r15,%rcx)
	addq	$4, %rcx
	cmpq	%rcx, %r14
	jne	.LBB15_33
.LBB15_34:
	movl	$32, %edi
	movl	$8, %esi
	callq	rattle_alloc@PLT
	testb	$1, %al
	je	.LBB15_37
	movq	$1, (%rdx)
	movq	%r15, 8(%rdx)
	movq	%r14, 16(%rdx)
	movq	%r14, 24(%rdx)
.LBB15_36:
	movl	$1, %eax
	xorl	%r12d, %r12d
	movq	%r15, %r13
	jmp	.LBB15_40
.LBB15_37:
	movq	%r15, %rdi
	callq	rattle_dealloc@PLT
.LBB15_38:
	xorl	%r13d, %r13d
.LBB15_39:
	xorl	%r14d, %r14d
	xorl	%eax, %eax
	xorl	%edx, %edx
.LBB15_40:
	movb	%r12b, (%rbx)
	movq	%r13, 8(%rbx)
	movq	$0, 16(%rbx)
	movq	%r14, 24(%rbx)
	movq	%rax, 32(%rbx)
	movq	%rdx, 40(%rbx)
.LBB15_41:
	addq	$40, %rsp
	popq	%rbx
	popq	%r12
	popq	%r13
	popq	%r14
	popq	%r15
	popq	%rbp
	retq
.Lfunc_end15:
	.size	"unftp_control_message::sent::Sent::to_bytes", .Lfunc_end15-"unftp_control_message::sent::Sent::to_bytes"

	.section	".text.unlikely.std_alloc::vec::Vec::grow_amortized::<#1908c79f2a33ade2>","ax",@progbits
	.p2align	4
	.type	"std_alloc::vec::Vec::grow_amortized::<#1908c79f2a33ade2>",@function
"std_alloc::vec::Vec::grow_amortized::<#1908c79f2a33ade2>":
	movq	%rsi, %rax
	movq	8(%rdi), %rsi
	addq	%rsi, %rax
	jae	.LBB16_2
	xorl	%eax, %eax
	retq
.LBB16_2:
	pushq	%r14
	pushq	%rbx
	pushq	%rax
	cmpq	$9, %rax
	movl	$8, %ebx
	cmovaeq	%rax, %rbx
	movq	16(%rdi), %rcx
	movq	%rcx, %rdx
	shrq	$62, %rdx
	leaq	(%rcx,%rcx), %rax
	cmpq	%rax, %rbx
	cmovaq	%rbx, %rax
	testq	%rdx, %rdx
	cmoveq	%rax, %rbx
	testq	%rbx, %rbx
	js	.LBB16_6
	testq	%rcx, %rcx
	je	.LBB16_8
	movq	%rdi, %r14
	movq	(%rdi), %rdi
	movl	$1, %ecx
	movq	%rbx, %rdx
	callq	rattle_realloc@PLT
	testb	$1, %al
	je	.LBB16_6
.LBB16_9:
	movq	%rdx, (%r14)
	movq	%rbx, 16(%r14)
	movb	$1, %al
	addq	$8, %rsp
	popq	%rbx
	popq	%r14
	retq
.LBB16_8:
	movq	%rdi, %r14
	movl	$1, %esi
	movq	%rax, %rdi
	callq	rattle_alloc@PLT
	testb	$1, %al
	jne	.LBB16_9
.LBB16_6:
	xorl	%eax, %eax
	addq	$8, %rsp
	popq	%rbx
	popq	%r14
	retq
.Lfunc_end16:
	.size	"std_alloc::vec::Vec::grow_amortized::<#1908c79f2a33ade2>", .Lfunc_end16-"std_alloc::vec::Vec::grow_amortized::<#1908c79f2a33ade2>"

	.section	.rodata.cst16,"aM",@progbits,16
	.p2align	4, 0x0
.LCPI17_0:
	.zero	16,13
	.section	".text.unftp_control_message::sent::unescape","ax",@progbits
	.p2align	4
	.type	"unftp_control_message::sent::unescape",@function
"unftp_control_message::sent::unescape":
	pushq	%rbp
	pushq	%r15
	pushq	%r14
	pushq	%r13
	pushq	%r12
	pushq	%rbx
	subq	$56, %rsp
	movq	%rdx, %r15
	movq	%rsi, %r14
	movq	%rdi, %rbx
	testq	%rdx, %rdx
	je	.LBB17_5
	js	.LBB17_4
	movl	$1, %esi
	movq	%r15, %rdi
	callq	rattle_alloc@PLT
	testb	$1, %al
	je	.LBB17_4
	movq	%rbx, 32(%rsp)
	jmp	.LBB17_6
.LBB17_4:
	movb	$1, (%rbx)
	pxor	%xmm0, %xmm0
	movdqu	%xmm0, 8(%rbx)
	movq	$0, 24(%rbx)
	jmp	.LBB17_128
.LBB17_5:
	movq	%rbx, 32(%rsp)
	leaq	47(%rsp), %rdx
.LBB17_6:
	movq	%rdx, 8(%rsp)
	leaq	16(%rsp), %r9
	movq	$0, 16(%rsp)
	movq	%r15, 24(%rsp)
	xorl	%r10d, %r10d
	movq	%r15, %r12
.LBB17_7:
	cmpq	$2, %r12
	jae	.LBB17_9
	testq	%r12, %r12
	jne	.LBB17_12
	jmp	.LBB17_125
	.p2align	4
.LBB17_9:
	cmpb	$13, (%r14)
	jne	.LBB17_11
	cmpb	$0, 1(%r14)
	je	.LBB17_59
.LBB17_11:
	cmpq	$32, %r12
	jae	.LBB17_15
.LBB17_12:
	xorl	%ebx, %ebx
	.p2align	4
.LBB17_13:
	cmpb	$13, (%r14,%rbx)
	je	.LBB17_52
	incq	%rbx
	cmpq	%rbx, %r12
	jne	.LBB17_13
	jmp	.LBB17_102
	.p2align	4
.LBB17_15:
	leaq	-64(%r12), %rax
	xorl	%edx, %edx
.LBB17_16:
	movq	%r12, %rcx
	subq	%rdx, %rcx
	cmpq	$191, %rcx
	jbe	.LBB17_28
	movdqa	.LCPI17_0(%rip), %xmm0
	movdqu	(%r14,%rdx), %xmm1
	movdqu	16(%r14,%rdx), %xmm2
	movdqu	32(%r14,%rdx), %xmm3
	movdqu	48(%r14,%rdx), %xmm4
	pcmpeqb	%xmm0, %xmm4
	pcmpeqb	%xmm0, %xmm3
	pcmpeqb	%xmm0, %xmm1
	pmovmskb	%xmm1, %ecx
	pcmpeqb	%xmm0, %xmm2
	pmovmskb	%xmm2, %esi
	shll	$16, %esi
	orl	%ecx, %esi
	pmovmskb	%xmm3, %ecx
	shlq	$32, %rcx
	orq	%rsi, %rcx
	pmovmskb	%xmm4, %edi
	shlq	$48, %rdi
	leaq	64(%rdx), %rsi
	orq	%rcx, %rdi
	jne	.LBB17_45
	movq	%r12, %rcx
	subq	%rsi, %rcx
	cmpq	$128, %rcx
	jb	.LBB17_23
	subq	$-128, %rdx
	movq	%rdx, %rsi
	.p2align	4
.LBB17_20:
	movdqu	-64(%r14,%rsi), %xmm8
	movdqu	-48(%r14,%rsi), %xmm7
	movdqu	-32(%r14,%rsi), %xmm6
	movdqu	-16(%r14,%rsi), %xmm3
	pcmpeqb	%xmm0, %xmm7
	pcmpeqb	%xmm0, %xmm8
	pcmpeqb	%xmm0, %xmm6
	pcmpeqb	%xmm0, %xmm3
	movdqu	(%r14,%rsi), %xmm5
	movdqu	16(%r14,%rsi), %xmm4
	pcmpeqb	%xmm0, %xmm4
	pcmpeqb	%xmm0, %xmm5
	movdqu	32(%r14,%rsi), %xmm2
	movdqu	48(%r14,%rsi), %xmm1
	pcmpeqb	%xmm0, %xmm1
	pcmpeqb	%xmm0, %xmm2
	movdqa	%xmm5, %xmm9
	por	%xmm2, %xmm9
	movdqa	%xmm4, %xmm10
	por	%xmm1, %xmm10
	movdqa	%xmm8, %xmm11
	por	%xmm6, %xmm11
	por	%xmm9, %xmm11
	movdqa	%xmm7, %xmm9
	por	%xmm3, %xmm9
	por	%xmm10, %xmm9
	por	%xmm11, %xmm9
	pmovmskb	%xmm9, %edx
	testl	%edx, %edx
	jne	.LBB17_48
	subq	$-128, %rsi
	addq	$-128, %rcx
	cmpq	$127, %rcx
	ja	.LBB17_20
	addq	$-64, %rsi
.LBB17_23:
	movq	%rsi, %rdx
	cmpq	$32, %rcx
	jb	.LBB17_27
	movq	%r12, %rcx
	subq	%rdx, %rcx
	.p2align	4
.LBB17_25:
	movdqu	(%r14,%rdx), %xmm1
	movdqu	16(%r14,%rdx), %xmm2
	pcmpeqb	%xmm0, %xmm1
	pmovmskb	%xmm1, %edi
	pcmpeqb	%xmm0, %xmm2
	pmovmskb	%xmm2, %esi
	shll	$16, %esi
	orl	%edi, %esi
	jne	.LBB17_44
	addq	$-32, %rcx
	addq	$32, %rdx
	cmpq	$31, %rcx
	ja	.LBB17_25
.LBB17_27:
	movdqu	-32(%r14,%r12), %xmm1
	movdqu	-16(%r14,%r12), %xmm2
	pcmpeqb	%xmm0, %xmm1
	pmovmskb	%xmm1, %ecx
	pcmpeqb	%xmm0, %xmm2
	pmovmskb	%xmm2, %edi
	jmp	.LBB17_42
	.p2align	4
.LBB17_28:
	cmpq	$64, %rcx
	jb	.LBB17_37
	.p2align	4
.LBB17_29:
	movdqu	(%r14,%rdx), %xmm4
	movdqu	16(%r14,%rdx), %xmm3
	movdqu	32(%r14,%rdx), %xmm2
	movdqu	48(%r14,%rdx), %xmm1
	movdqa	.LCPI17_0(%rip), %xmm0
	movdqa	%xmm3, %xmm5
	pcmpeqb	%xmm0, %xmm5
	movdqa	%xmm4, %xmm6
	pcmpeqb	%xmm0, %xmm6
	movdqa	%xmm1, %xmm7
	pcmpeqb	%xmm0, %xmm7
	por	%xmm5, %xmm7
	movdqa	%xmm2, %xmm5
	pcmpeqb	%xmm0, %xmm5
	por	%xmm6, %xmm5
	por	%xmm7, %xmm5
	pmovmskb	%xmm5, %esi
	testl	%esi, %esi
	jne	.LBB17_31
	addq	$64, %rdx
	addq	$-64, %rcx
	cmpq	$63, %rcx
	ja	.LBB17_29
	jmp	.LBB17_37
.LBB17_31:
	cmpq	$64, %rcx
	jb	.LBB17_37
.LBB17_32:
	pcmpeqb	%xmm0, %xmm1
	pcmpeqb	%xmm0, %xmm2
	pcmpeqb	%xmm0, %xmm4
	pmovmskb	%xmm4, %ecx
	pcmpeqb	%xmm0, %xmm3
	pmovmskb	%xmm3, %esi
	shll	$16, %esi
	orl	%ecx, %esi
	pmovmskb	%xmm2, %ecx
	shlq	$32, %rcx
	orq	%rsi, %rcx
	pmovmskb	%xmm1, %edi
	shlq	$48, %rdi
	orq	%rcx, %rdi
	jne	.LBB17_51
	movq	%rax, %rcx
	subq	%rdx, %rcx
	.p2align	4
.LBB17_34:
	cmpq	$64, %rcx
	jb	.LBB17_36
	movdqu	64(%r14,%rdx), %xmm4
	movdqu	80(%r14,%rdx), %xmm3
	movdqu	96(%r14,%rdx), %xmm2
	movdqu	112(%r14,%rdx), %xmm1
	movdqa	%xmm3, %xmm5
	pcmpeqb	%xmm0, %xmm5
	movdqa	%xmm4, %xmm6
	pcmpeqb	%xmm0, %xmm6
	movdqa	%xmm1, %xmm7
	pcmpeqb	%xmm0, %xmm7
	por	%xmm5, %xmm7
	movdqa	%xmm2, %xmm5
	pcmpeqb	%xmm0, %xmm5
	por	%xmm6, %xmm5
	por	%xmm7, %xmm5
	pmovmskb	%xmm5, %esi
	addq	$-64, %rcx
	addq	$64, %rdx
	testl	%esi, %esi
	je	.LBB17_34
	jmp	.LBB17_32
.LBB17_36:
	addq	$64, %rdx
	.p2align	4
.LBB17_37:
	cmpq	$32, %rcx
	jb	.LBB17_41
	movq	%r12, %rcx
	subq	%rdx, %rcx
	.p2align	4
.LBB17_39:
	movdqu	(%r14,%rdx), %xmm0
	movdqu	16(%r14,%rdx), %xmm1
	movdqa	.LCPI17_0(%rip), %xmm2
	pcmpeqb	%xmm2, %xmm0
	pmovmskb	%xmm0, %edi
	pcmpeqb	%xmm2, %xmm1
	pmovmskb	%xmm1, %esi
	shll	$16, %esi
	orl	%edi, %esi
	jne	.LBB17_44
	addq	$-32, %rcx
	addq	$32, %rdx
	cmpq	$31, %rcx
	ja	.LBB17_39
.LBB17_41:
	movdqu	-32(%r14,%r12), %xmm0
	movdqu	-16(%r14,%r12), %xmm1
	movdqa	.LCPI17_0(%rip), %xmm2
	pcmpeqb	%xmm2, %xmm0
	pmovmskb	%xmm0, %ecx
	pcmpeqb	%xmm2, %xmm1
	pmovmskb	%xmm1, %edi
.LBB17_42:
	shll	$16, %edi
	orl	%ecx, %edi
	movl	%edx, %ecx
	subl	%r12d, %ecx
	addb	$32, %cl
	shrq	%cl, %rdi
	movq	%rdx, %rsi
	movq	%r12, %rcx
.LBB17_43:
	movq	%rsi, %rdx
	movq	%rcx, %rsi
	testq	%rdi, %rdi
	jne	.LBB17_45
	jmp	.LBB17_47
.LBB17_44:
	movl	%esi, %edi
	leaq	32(%rdx), %rsi
	.p2align	4
.LBB17_45:
	rep		bsfq	%rdi, %rcx
	leaq	(%rcx,%rdx), %rbx
	cmpb	$13, (%r14,%rbx)
	je	.LBB17_52
	movq	$-2, %r8
	rolq	%cl, %r8
	andq	%r8, %rdi
	jne	.LBB17_45
.LBB17_47:
	movq	%rsi, %rdx
	cmpq	%r12, %rsi
	jb	.LBB17_16
	jmp	.LBB17_102
.LBB17_48:
	pmovmskb	%xmm8, %ecx
	pmovmskb	%xmm7, %edx
	shll	$16, %edx
	orl	%ecx, %edx
	pmovmskb	%xmm6, %ecx
	shlq	$32, %rcx
	orq	%rdx, %rcx
	pmovmskb	%xmm3, %edi
	shlq	$48, %rdi
	orq	%rcx, %rdi
	je	.LBB17_50
	leaq	-64(%rsi), %rdx
	jmp	.LBB17_45
.LBB17_50:
	leaq	64(%rsi), %rcx
	pmovmskb	%xmm5, %edx
	pmovmskb	%xmm4, %edi
	shll	$16, %edi
	orl	%edx, %edi
	pmovmskb	%xmm2, %edx
	shlq	$32, %rdx
	orq	%rdi, %rdx
	pmovmskb	%xmm1, %edi
	shlq	$48, %rdi
	orq	%rdx, %rdi
	jmp	.LBB17_43
.LBB17_51:
	leaq	64(%rdx), %rsi
	jmp	.LBB17_45
	.p2align	4
.LBB17_52:
	leaq	1(%rbx), %rbp
	movq	%r15, %rax
	subq	%r10, %rax
	cmpq	%rax, %rbp
	ja	.LBB17_96
.LBB17_53:
	movq	8(%rsp), %rax
	pxor	%xmm0, %xmm0
	movdqu	%xmm0, (%r9)
	leaq	(%rax,%r10), %rdi
	movq	%rdi, %rcx
	subq	%r14, %rcx
	cmpq	%rbp, %rcx
	jae	.LBB17_56
	cmpq	$4, %rbp
	jb	.LBB17_55
	cmpq	$32, %rcx
	jae	.LBB17_71
.LBB17_55:
	xorl	%ecx, %ecx
.LBB17_87:
	movl	%ebx, %esi
	notl	%esi
	movq	%rcx, %rdx
	testb	$3, %sil
	je	.LBB17_90
	leal	1(%rbx), %esi
	andl	$3, %esi
	movq	%rcx, %rdx
	.p2align	4
.LBB17_89:
	movzbl	(%r14,%rdx), %r8d
	movb	%r8b, (%rdi,%rdx)
	incq	%rdx
	decq	%rsi
	jne	.LBB17_89
.LBB17_90:
	movq	%rbx, %rsi
	subq	%rcx, %rsi
	cmpq	$3, %rsi
	jb	.LBB17_93
	addq	%r10, %rax
	addq	$3, %rax
	.p2align	4
.LBB17_92:
	movzbl	(%r14,%rdx), %ecx
	movb	%cl, -3(%rax,%rdx)
	movzbl	1(%r14,%rdx), %ecx
	movb	%cl, -2(%rax,%rdx)
	movzbl	2(%r14,%rdx), %ecx
	movb	%cl, -1(%rax,%rdx)
	movzbl	3(%r14,%rdx), %ecx
	movb	%cl, (%rax,%rdx)
	addq	$4, %rdx
	cmpq	%rdx, %rbp
	jne	.LBB17_92
	jmp	.LBB17_93
	.p2align	4
.LBB17_56:
	movq	%r14, %rsi
	movq	%rbp, %rdx
	movq	%r15, %r13
	movq	%r9, %r15
	movq	%r12, 48(%rsp)
	movq	%r10, %r12
	callq	memmove@PLT
	movq	%r12, %r10
	movq	48(%rsp), %r12
	movq	%r15, %r9
	movq	%r13, %r15
.LBB17_93:
	addq	%rbx, %r14
	incq	%r14
	movq	%r12, %rax
	subq	%rbp, %rax
	addq	%rbp, %r10
	movq	%r10, 16(%rsp)
	movq	%r15, 24(%rsp)
	xorl	%r12d, %r12d
	testq	%rax, %rax
	je	.LBB17_7
	cmpb	$0, (%r14)
	movq	%rax, %r12
	jne	.LBB17_7
	decq	%rax
	incq	%r14
	movq	%rax, %r12
	jmp	.LBB17_7
.LBB17_59:
	xorl	%ebp, %ebp
	cmpq	$8, %r12
	jae	.LBB17_73
	movq	%r14, %rcx
	movq	%r12, %rax
.LBB17_61:
	addq	$-2, %rax
	shrq	%rax
	incq	%rax
	xorl	%edx, %edx
	.p2align	4
.LBB17_62:
	cmpb	$13, (%rcx,%rdx,2)
	jne	.LBB17_66
	cmpb	$0, 1(%rcx,%rdx,2)
	jne	.LBB17_66
	incq	%rdx
	cmpq	%rdx, %rax
	jne	.LBB17_62
	movq	%rax, %rdx
.LBB17_66:
	addq	%rdx, %rbp
	leaq	(%r10,%rbp), %rbx
	cmpq	%r10, %rbx
	jbe	.LBB17_78
.LBB17_67:
	movq	%r15, %rax
	subq	%r10, %rax
	cmpq	%rax, %rbp
	ja	.LBB17_100
	cmpq	%rbx, %r10
	jae	.LBB17_70
.LBB17_69:
	addq	8(%rsp), %r10
	movq	%r10, %rdi
	movl	$13, %esi
	movq	%rbp, %rdx
	movq	%r9, %r13
	callq	memset@PLT
	movq	%r13, %r9
.LBB17_70:
	movq	%rbx, 16(%rsp)
	movq	%r15, 24(%rsp)
	jmp	.LBB17_99
.LBB17_71:
	cmpq	$32, %rbp
	jae	.LBB17_80
	xorl	%ecx, %ecx
	jmp	.LBB17_84
.LBB17_73:
	movq	%r12, %rax
	movq	%r14, %rcx
	.p2align	4
.LBB17_74:
	movabsq	$3659230532665357, %rdx
	cmpq	%rdx, (%rcx)
	jne	.LBB17_61
	addq	$8, %rcx
	addq	$-8, %rax
	addq	$4, %rbp
	cmpq	$7, %rax
	ja	.LBB17_74
	cmpq	$2, %rax
	jae	.LBB17_61
	xorl	%edx, %edx
	addq	%rdx, %rbp
	leaq	(%r10,%rbp), %rbx
	cmpq	%r10, %rbx
	ja	.LBB17_67
.LBB17_78:
	jae	.LBB17_98
	movq	%rbx, 16(%rsp)
	jmp	.LBB17_99
.LBB17_80:
	movq	%rbp, %rcx
	andq	$-32, %rcx
	leaq	(%rax,%r10), %rdx
	addq	$16, %rdx
	xorl	%esi, %esi
	.p2align	4
.LBB17_81:
	movdqu	(%r14,%rsi), %xmm0
	movdqu	16(%r14,%rsi), %xmm1
	movdqu	%xmm0, -16(%rdx,%rsi)
	movdqu	%xmm1, (%rdx,%rsi)
	addq	$32, %rsi
	cmpq	%rsi, %rcx
	jne	.LBB17_81
	cmpq	%rcx, %rbp
	je	.LBB17_93
	testb	$28, %bpl
	je	.LBB17_87
.LBB17_84:
	movq	%rcx, %rdx
	movq	%rbp, %rcx
	andq	$-4, %rcx
	.p2align	4
.LBB17_85:
	movl	(%r14,%rdx), %esi
	movl	%esi, (%rdi,%rdx)
	addq	$4, %rdx
	cmpq	%rdx, %rcx
	jne	.LBB17_85
	cmpq	%rcx, %rbp
	je	.LBB17_93
	jmp	.LBB17_87
.LBB17_96:
	leaq	8(%rsp), %rdi
	movq	%rbp, %rsi
	callq	"std_alloc::vec::Vec::grow_amortized::<#1908c79f2a33ade2>"
	testb	%al, %al
	je	.LBB17_129
	movq	16(%rsp), %r10
	movq	24(%rsp), %r15
	leaq	16(%rsp), %r9
	jmp	.LBB17_53
.LBB17_98:
	movq	%r10, %rbx
.LBB17_99:
	leaq	(%r14,%rbp,2), %r14
	addq	%rbp, %rbp
	subq	%rbp, %r12
	movq	%rbx, %r10
	jmp	.LBB17_7
.LBB17_100:
	leaq	8(%rsp), %rdi
	movq	%rbp, %rsi
	callq	"std_alloc::vec::Vec::grow_amortized::<#1908c79f2a33ade2>"
	testb	%al, %al
	je	.LBB17_129
	movq	16(%rsp), %r10
	movq	24(%rsp), %r15
	leaq	(%r10,%rbp), %rbx
	leaq	16(%rsp), %r9
	cmpq	%rbx, %r10
	jb	.LBB17_69
	jmp	.LBB17_70
.LBB17_102:
	movq	%r15, %rax
	subq	%r10, %rax
	cmpq	%rax, %r12
	ja	.LBB17_123
.LBB17_103:
	leaq	(%r10,%r12), %rbx
	movq	8(%rsp), %rax
	pxor	%xmm0, %xmm0
	movdqu	%xmm0, (%r9)
	leaq	(%rax,%r10), %rdi
	movq	%rdi, %rcx
	subq	%r14, %rcx
	cmpq	%r12, %rcx
	jae	.LBB17_126
	cmpq	$4, %r12
	jb	.LBB17_105
	leaq	(%rax,%r10), %rcx
	subq	%r14, %rcx
	cmpq	$32, %rcx
	jae	.LBB17_108
.LBB17_105:
	xorl	%ecx, %ecx
.LBB17_117:
	movq	%r12, %rsi
	movq	%rcx, %rdx
	andq	$3, %rsi
	je	.LBB17_120
	movq	%rcx, %rdx
	.p2align	4
.LBB17_119:
	movzbl	(%r14,%rdx), %r8d
	movb	%r8b, (%rdi,%rdx)
	incq	%rdx
	decq	%rsi
	jne	.LBB17_119
.LBB17_120:
	subq	%r12, %rcx
	cmpq	$-4, %rcx
	ja	.LBB17_127
	addq	%r10, %rax
	addq	$3, %rax
	.p2align	4
.LBB17_122:
	movzbl	(%r14,%rdx), %ecx
	movb	%cl, -3(%rax,%rdx)
	movzbl	1(%r14,%rdx), %ecx
	movb	%cl, -2(%rax,%rdx)
	movzbl	2(%r14,%rdx), %ecx
	movb	%cl, -1(%rax,%rdx)
	movzbl	3(%r14,%rdx), %ecx
	movb	%cl, (%rax,%rdx)
	addq	$4, %rdx
	cmpq	%rdx, %r12
	jne	.LBB17_122
	jmp	.LBB17_127
.LBB17_108:
	cmpq	$32, %r12
	jae	.LBB17_110
	xorl	%ecx, %ecx
	jmp	.LBB17_114
.LBB17_110:
	movq	%r12, %rcx
	andq	$-32, %rcx
	leaq	(%r10,%rax), %rdx
	addq	$16, %rdx
	xorl	%esi, %esi
	.p2align	4
.LBB17_111:
	movdqu	(%r14,%rsi), %xmm0
	movdqu	16(%r14,%rsi), %xmm1
	movdqu	%xmm0, -16(%rdx,%rsi)
	movdqu	%xmm1, (%rdx,%rsi)
	addq	$32, %rsi
	cmpq	%rsi, %rcx
	jne	.LBB17_111
	cmpq	%rcx, %r12
	je	.LBB17_127
	testb	$28, %r12b
	je	.LBB17_117
.LBB17_114:
	movq	%rcx, %rdx
	movq	%r12, %rcx
	andq	$-4, %rcx
	.p2align	4
.LBB17_115:
	movl	(%r14,%rdx), %esi
	movl	%esi, (%rdi,%rdx)
	addq	$4, %rdx
	cmpq	%rdx, %rcx
	jne	.LBB17_115
	cmpq	%rcx, %r12
	je	.LBB17_127
	jmp	.LBB17_117
.LBB17_123:
	movq	%r9, %rbx
	leaq	8(%rsp), %rdi
	movq	%r12, %rsi
	callq	"std_alloc::vec::Vec::grow_amortized::<#1908c79f2a33ade2>"
	testb	%al, %al
	je	.LBB17_129
	movq	16(%rsp), %r10
	movq	24(%rsp), %r15
	movq	%rbx, %r9
	jmp	.LBB17_103
.LBB17_125:
	pxor	%xmm0, %xmm0
	movq	8(%rsp), %rdi
	addq	%r10, %rdi
	movdqu	%xmm0, (%r9)
	xorl	%r12d, %r12d
	movq	%r10, %rbx
.LBB17_126:
	movq	%r14, %rsi
	movq	%r12, %rdx
	callq	memmove@PLT
.LBB17_127:
	movq	32(%rsp), %rcx
	movq	%rbx, 16(%rsp)
	movq	%r15, 24(%rsp)
	movb	$0, (%rcx)
	movq	8(%rsp), %rax
	movq	%rax, 8(%rcx)
	movq	16(%rsp), %rax
	movq	%rax, 16(%rcx)
	movq	24(%rsp), %rax
	movq	%rax, 24(%rcx)
.LBB17_128:
	addq	$56, %rsp
	popq	%rbx
	popq	%r12
	popq	%r13
	popq	%r14
	popq	%r15
	popq	%rbp
	retq
.LBB17_129:
	cmpq	$0, 24(%rsp)
	je	.LBB17_131
	movq	8(%rsp), %rdi
	callq	rattle_dealloc@PLT
.LBB17_131:
	movq	32(%rsp), %rax
	movb	$1, (%rax)
	pxor	%xmm0, %xmm0
	movdqu	%xmm0, 8(%rax)
	movq	$0, 24(%rax)
	jmp	.LBB17_128
.Lfunc_end17:
	.size	"unftp_control_message::sent::unescape", .Lfunc_end17-"unftp_control_message::sent::unescape"

	.section	".text.unftp_control_message::sent::Sent::to_text","ax",@progbits
	.p2align	4
	.type	"unftp_control_message::sent::Sent::to_text",@function
"unftp_control_message::sent::Sent::to_text":
	pushq	%rbp
	pushq	%r15
	pushq	%r14
	pushq	%r12
	pushq	%rbx
	subq	$128, %rsp
	movq	%rsi, %rax
	movq	%rdi, %rbx
	movzbl	(%rsi), %ecx
	movq	8(%rsi), %rsi
	movq	16(%rax), %rdx
	xorps	%xmm0, %xmm0
	movaps	%xmm0, 112(%rsp)
	movaps	%xmm0, 96(%rsp)
	testq	%rdx, %rdx
	je	.LBB18_1
	testb	%cl, %cl
	je	.LBB18_3
	leaq	96(%rsp), %rdi
	callq	"unftp_control_message::sent::unescape"
	cmpb	$0, 96(%rsp)
	je	.LBB18_33
	movb	$1, (%rbx)
	xorps	%xmm0, %xmm0
	movups	%xmm0, 8(%rbx)
	movq	$0, 24(%rbx)
	jmp	.LBB18_38
.LBB18_1:
	movb	$0, (%rbx)
	leaq	15(%rsp), %rax
	movq	%rax, 8(%rbx)
	movups	%xmm0, 16(%rbx)
	jmp	.LBB18_38
.LBB18_3:
	movaps	%xmm0, 48(%rsp)
	movq	$0, 64(%rsp)
	movaps	%xmm0, 16(%rsp)
	movaps	%xmm0, 32(%rsp)
	leaq	48(%rsp), %rdi
	movq	%rsi, %r15
	movq	%rdx, %r14
	callq	"core::str::utf8::from_utf8"
	cmpb	$0, 48(%rsp)
	je	.LBB18_4
	leaq	16(%rsp), %rdi
	movq	%r15, %rsi
	movq	%r14, %rdx
	callq	"unftp_control_message::utf8::replaced"
	jmp	.LBB18_30
.LBB18_33:
	movq	104(%rsp), %r14
	movq	112(%rsp), %r15
	movq	120(%rsp), %r12
	xorps	%xmm0, %xmm0
	movaps	%xmm0, 32(%rsp)
	movaps	%xmm0, 16(%rsp)
	movaps	%xmm0, 48(%rsp)
	movq	$0, 64(%rsp)
	leaq	48(%rsp), %rdi
	movq	%r14, %rsi
	movq	%r15, %rdx
	callq	"core::str::utf8::from_utf8"
	cmpb	$1, 48(%rsp)
	jne	.LBB18_34
	leaq	16(%rsp), %rdi
	movq	%r14, %rsi
	movq	%r15, %rdx
	callq	"unftp_control_message::utf8::replaced"
	testq	%r12, %r12
	je	.LBB18_30
	movq	%r14, %rdi
	callq	rattle_dealloc@PLT
	jmp	.LBB18_30
.LBB18_4:
	movq	56(%rsp), %r12
	movq	64(%rsp), %r15
	testq	%r15, %r15
	je	.LBB18_5
	movb	$1, %bpl
	js	.LBB18_7
	movl	$1, %esi
	movq	%r15, %rdi
	callq	rattle_alloc@PLT
	xorl	%r14d, %r14d
	movl	$0, %ecx
	testb	$1, %al
	je	.LBB18_28
	movq	%rdx, %r14
	jmp	.LBB18_10
.LBB18_34:
	movb	$0, 16(%rsp)
	movq	%r14, 24(%rsp)
	movq	%r15, 32(%rsp)
	movq	%r12, 40(%rsp)
.LBB18_30:
	movzbl	16(%rsp), %ebp
	movq	24(%rsp), %r14
	jmp	.LBB18_31
.LBB18_5:
	leaq	15(%rsp), %r14
.LBB18_10:
	movq	%r14, %rcx
	subq	%r12, %rcx
	cmpq	%r15, %rcx
	jae	.LBB18_39
	xorl	%eax, %eax
	cmpq	$4, %r15
	jb	.LBB18_22
	cmpq	$32, %rcx
	jb	.LBB18_22
	cmpq	$32, %r15
	jae	.LBB18_15
	xorl	%eax, %eax
	jmp	.LBB18_19
.LBB18_39:
	movq	%r14, %rdi
	movq	%r12, %rsi
	movq	%r15, %rdx
	callq	memmove@PLT
	jmp	.LBB18_27
.LBB18_7:
	xorl	%r14d, %r14d
	xorl	%ecx, %ecx
	jmp	.LBB18_28
.LBB18_15:
	movq	%r15, %rax
	andq	$-32, %rax
	xorl	%ecx, %ecx
	.p2align	4
.LBB18_16:
	movups	(%r12,%rcx), %xmm0
	movups	16(%r12,%rcx), %xmm1
	movups	%xmm0, (%r14,%rcx)
	movups	%xmm1, 16(%r14,%rcx)
	addq	$32, %rcx
	cmpq	%rcx, %rax
	jne	.LBB18_16
	cmpq	%rax, %r15
	je	.LBB18_27
	testb	$28, %r15b
	je	.LBB18_22
.LBB18_19:
	movq	%rax, %rcx
	movq	%r15, %rax
	andq	$-4, %rax
	.p2align	4
.LBB18_20:
	movl	(%r12,%rcx), %edx
	movl	%edx, (%r14,%rcx)
	addq	$4, %rcx
	cmpq	%rcx, %rax
	jne	.LBB18_20
	cmpq	%rax, %r15
	je	.LBB18_27
.LBB18_22:
	movq	%r15, %rdx
	movq	%rax, %rcx
	andq	$3, %rdx
	je	.LBB18_25
	movq	%rax, %rcx
	.p2align	4
.LBB18_24:
	movzbl	(%r12,%rcx), %esi
	movb	%sil, (%r14,%rcx)
	incq	%rcx
	decq	%rdx
	jne	.LBB18_24
.LBB18_25:
	subq	%r15, %rax
	cmpq	$-4, %rax
	ja	.LBB18_27
	.p2align	4
.LBB18_26:
	movzbl	(%r12,%rcx), %eax
	movb	%al, (%r14,%rcx)
	movzbl	1(%r12,%rcx), %eax
	movb	%al, 1(%r14,%rcx)
	movzbl	2(%r12,%rcx), %eax
	movb	%al, 2(%r14,%rcx)
	movzbl	3(%r12,%rcx), %eax
	movb	%al, 3(%r14,%rcx)
	addq	$4, %rcx
	cmpq	%rcx, %r15
	jne	.LBB18_26
.LBB18_27:
	xorl	%ebp, %ebp
	movq	%r15, %rcx
.LBB18_28:
	movq	%rcx, 32(%rsp)
	movq	%rcx, 40(%rsp)
.LBB18_31:
	movq	32(%rsp), %rax
	movq	%rax, 80(%rsp)
	movq	40(%rsp), %rax
	movq	%rax, 88(%rsp)
	movb	%bpl, (%rbx)
	movq	%r14, 8(%rbx)
	movq	80(%rsp), %rax
	movq	%rax, 16(%rbx)
	movq	88(%rsp), %rax
	movq	%rax, 24(%rbx)
.LBB18_38:
	addq	$128, %rsp
	popq	%rbx
	popq	%r12
	popq	%r14
	popq	%r15
	popq	%rbp
	retq
.Lfunc_end18:
	.size	"unftp_control_message::sent::Sent::to_text", .Lfunc_end18-"unftp_control_message::sent::Sent::to_text"

	.section	".text.unftp_control_message::utf8::replaced","ax",@progbits
	.p2align	4
	.type	"unftp_control_message::utf8::replaced",@function
"unftp_control_message::utf8::replaced":
	pushq	%rbp
	pushq	%r15
	pushq	%r14
	pushq	%r13
	pushq	%r12
	pushq	%rbx
	subq	$56, %rsp
	movq	%rdi, %rbx
	movq	%rdx, %rax
	addq	$32, %rax
	movq	$-1, %r12
	cmovaeq	%rax, %r12
	testq	%r12, %r12
	js	.LBB19_33
	movq	%rdx, %r14
	movq	%rsi, %r15
	movl	$1, %esi
	movq	%r12, %rdi
	callq	rattle_alloc@PLT
	testb	$1, %al
	je	.LBB19_33
	movq	%rbx, 24(%rsp)
	movq	%rdx, (%rsp)
	movq	$0, 8(%rsp)
	movq	%r12, 16(%rsp)
	testq	%r14, %r14
	jne	.LBB19_5
.LBB19_3:
	movq	24(%rsp), %rcx
	movb	$0, (%rcx)
	movq	(%rsp), %rax
	movq	%rax, 8(%rcx)
	movq	8(%rsp), %rax
	movq	%rax, 16(%rcx)
	movq	16(%rsp), %rax
	movq	%rax, 24(%rcx)
	jmp	.LBB19_34
	.p2align	4
.LBB19_4:
	addq	%r13, %r15
	subq	%r13, %r14
	je	.LBB19_3
.LBB19_5:
	xorps	%xmm0, %xmm0
	movaps	%xmm0, 32(%rsp)
	movq	$0, 48(%rsp)
	leaq	32(%rsp), %rdi
	movq	%r15, %rsi
	movq	%r14, %rdx
	callq	"core::str::utf8::from_utf8"
	cmpb	$0, 32(%rsp)
	movq	%r14, %r13
	movq	%r14, %r12
	je	.LBB19_7
	movq	40(%rsp), %r12
	movzbl	49(%rsp), %eax
	movq	%r14, %rcx
	subq	%r12, %rcx
	cmpb	$1, 48(%rsp)
	cmovneq	%rcx, %rax
	cmpq	%rax, %rcx
	cmovaeq	%rax, %rcx
	testq	%rax, %rax
	movl	$1, %r13d
	cmovneq	%rcx, %r13
	addq	%r12, %r13
.LBB19_7:
	movq	8(%rsp), %rbp
	movq	16(%rsp), %rbx
	movq	%rbx, %rax
	subq	%rbp, %rax
	cmpq	%rax, %r12
	ja	.LBB19_31
.LBB19_8:
	movq	(%rsp), %rax
	leaq	(%rax,%rbp), %rdi
	movq	%rdi, %rcx
	subq	%r15, %rcx
	cmpq	%r12, %rcx
	jae	.LBB19_11
	cmpq	$4, %r12
	jb	.LBB19_10
	cmpq	$32, %rcx
	jae	.LBB19_14
.LBB19_10:
	xorl	%ecx, %ecx
.LBB19_23:
	movq	%r12, %rsi
	movq	%rcx, %rdx
	andq	$3, %rsi
	je	.LBB19_26
	movq	%rcx, %rdx
	.p2align	4
.LBB19_25:
	movzbl	(%r15,%rdx), %r8d
	movb	%r8b, (%rdi,%rdx)
	incq	%rdx
	decq	%rsi
	jne	.LBB19_25
.LBB19_26:
	subq	%r12, %rcx
	cmpq	$-4, %rcx
	ja	.LBB19_29
	addq	%rbp, %rax
	addq	$3, %rax
	.p2align	4
.LBB19_28:
	movzbl	(%r15,%rdx), %ecx
	movb	%cl, -3(%rax,%rdx)
	movzbl	1(%r15,%rdx), %ecx
	movb	%cl, -2(%rax,%rdx)
	movzbl	2(%r15,%rdx), %ecx
	movb	%cl, -1(%rax,%rdx)
	movzbl	3(%r15,%rdx), %ecx
	movb	%cl, (%rax,%rdx)
	addq	$4, %rdx
	cmpq	%rdx, %r12
	jne	.LBB19_28
	jmp	.LBB19_29
	.p2align	4
.LBB19_11:
	movq	%r15, %rsi
	movq	%r12, %rdx
	callq	memmove@PLT
.LBB19_29:
	addq	%r12, %rbp
	movq	%rbp, 8(%rsp)
	movq	%rbx, 16(%rsp)
	cmpq	%r12, %r13
	je	.LBB19_4
	movq	%rsp, %rdi
	callq	"std_alloc::string::add_wide::<#c434390fa3fa721d>"
	testb	%al, %al
	je	.LBB19_4
	jmp	.LBB19_35
.LBB19_14:
	cmpq	$32, %r12
	jae	.LBB19_16
	xorl	%ecx, %ecx
	jmp	.LBB19_20
.LBB19_16:
	movq	%r12, %rcx
	andq	$-32, %rcx
	leaq	(%rax,%rbp), %rdx
	addq	$16, %rdx
	xorl	%esi, %esi
	.p2align	4
.LBB19_17:
	movups	(%r15,%rsi), %xmm0
	movups	16(%r15,%rsi), %xmm1
	movups	%xmm0, -16(%rdx,%rsi)
	movups	%xmm1, (%rdx,%rsi)
	addq	$32, %rsi
	cmpq	%rsi, %rcx
	jne	.LBB19_17
	cmpq	%rcx, %r12
	je	.LBB19_29
	testb	$28, %r12b
	je	.LBB19_23
.LBB19_20:
	movq	%rcx, %rdx
	movq	%r12, %rcx
	andq	$-4, %rcx
	.p2align	4
.LBB19_21:
	movl	(%r15,%rdx), %esi
	movl	%esi, (%rdi,%rdx)
	addq	$4, %rdx
	cmpq	%rdx, %rcx
	jne	.LBB19_21
	cmpq	%rcx, %r12
	je	.LBB19_29
	jmp	.LBB19_23
.LBB19_31:
	movq	%rsp, %rdi
	movq	%r12, %rsi
	callq	"std_alloc::vec::Vec::grow_amortized::<#1908c79f2a33ade2>"
	testb	%al, %al
	je	.LBB19_35
	movq	8(%rsp), %rbp
	movq	16(%rsp), %rbx
	jmp	.LBB19_8
.LBB19_33:
	movb	$1, (%rbx)
	xorps	%xmm0, %xmm0
	movups	%xmm0, 8(%rbx)
	movq	$0, 24(%rbx)
.LBB19_34:
	addq	$56, %rsp
	popq	%rbx
	popq	%r12
	popq	%r13
	popq	%r14
	popq	%r15
	popq	%rbp
	retq
.LBB19_35:
	cmpq	$0, 16(%rsp)
	je	.LBB19_37
	movq	(%rsp), %rdi
	callq	rattle_dealloc@PLT
.LBB19_37:
	movq	24(%rsp), %rax
	movb	$1, (%rax)
	xorps	%xmm0, %xmm0
	movups	%xmm0, 8(%rax)
	movq	$0, 24(%rax)
	jmp	.LBB19_34
.Lfunc_end19:
	.size	"unftp_control_message::utf8::replaced", .Lfunc_end19-"unftp_control_message::utf8::replaced"

	.section	".text.std_alloc::string::add_wide::<#c434390fa3fa721d>","ax",@progbits
	.p2align	4
	.type	"std_alloc::string::add_wide::<#c434390fa3fa721d>",@function
"std_alloc::string::add_wide::<#c434390fa3fa721d>":
	pushq	%rbx
	movq	8(%rdi), %rcx
	movq	16(%rdi), %rax
	movq	%rax, %rdx
	subq	%rcx, %rdx
	cmpq	$2, %rdx
	jbe	.LBB20_1
.LBB20_3:
	leaq	3(%rcx), %rdx
	movq	(%rdi), %rsi
	movw	$-16401, (%rsi,%rcx)
	movb	$-67, 2(%rsi,%rcx)
	movq	%rsi, (%rdi)
	movq	%rdx, 8(%rdi)
	movq	%rax, 16(%rdi)
	xorl	%eax, %eax
.LBB20_4:
	popq	%rbx
	retq
.LBB20_1:
	movl	$3, %esi
	movq	%rdi, %rbx
	callq	"std_alloc::vec::Vec::grow_amortized::<#1908c79f2a33ade2>"
	movl	%eax, %ecx
	movb	$1, %al
	testb	%cl, %cl
	je	.LBB20_4
	movq	%rbx, %rdi
	movq	8(%rbx), %rcx
	movq	16(%rbx), %rax
	jmp	.LBB20_3
.Lfunc_end20:
	.size	"std_alloc::string::add_wide::<#c434390fa3fa721d>", .Lfunc_end20-"std_alloc::string::add_wide::<#c434390fa3fa721d>"

	.section	".text.unlikely.core::fmt::formatter::Formatter::write_indented::<#a09238b4ff3d99c5>","ax",@progbits
	.p2align	4
	.type	"core::fmt::formatter::Formatter::write_indented::<#a09238b4ff3d99c5>",@function
"core::fmt::formatter::Formatter::write_indented::<#a09238b4ff3d99c5>":
	pushq	%rbp
	pushq	%r15
	pushq	%r14
	pushq	%r13
	pushq	%r12
	pushq	%rbx
	pushq	%rax
	testq	%rdx, %rdx
	je	.LBB21_1
	movq	%rsi, %r14
	movq	%rdi, %r15
	xorl	%ecx, %ecx
	xorl	%ebp, %ebp
	movq	%rdx, (%rsp)
	jmp	.LBB21_3
	.p2align	4
.LBB21_7:
	addq	%r14, %r13
	movb	$1, 56(%r15)
	movq	%r15, %rdi
	movq	%r13, %rsi
	movq	%r12, %rdx
	callq	"core::fmt::formatter::Formatter::write_raw::<#a09238b4ff3d99c5>"
	movq	%rbp, %rcx
	testb	%al, %al
	movq	(%rsp), %rdx
	jne	.LBB21_17
.LBB21_8:
	cmpq	%rdx, %rbp
	je	.LBB21_9
.LBB21_3:
	movq	%rbp, %rax
	incq	%rbp
	cmpb	$10, (%r14,%rax)
	jne	.LBB21_8
	xorl	%r13d, %r13d
	movq	%rbp, %r12
	subq	%rcx, %r12
	cmovaeq	%rcx, %r13
	cmpq	%rax, %rcx
	movq	%rbp, %rcx
	ja	.LBB21_8
	cmpb	$1, 56(%r15)
	jne	.LBB21_7
	movq	48(%r15), %rbx
	testq	%rbx, %rbx
	je	.LBB21_7
	.p2align	4
.LBB21_14:
	leaq	.Lstatic.71(%rip), %rsi
	movl	$4, %edx
	movq	%r15, %rdi
	callq	"core::fmt::formatter::Formatter::write_raw::<#a09238b4ff3d99c5>"
	testb	%al, %al
	jne	.LBB21_17
	decq	%rbx
	jne	.LBB21_14
	jmp	.LBB21_7
.LBB21_1:
	xorl	%eax, %eax
	jmp	.LBB21_18
.LBB21_9:
	xorl	%eax, %eax
	cmpq	%rdx, %rcx
	movq	%rcx, %r12
	cmovaq	%rax, %r12
	subq	%rcx, %rdx
	cmovbq	%rax, %rdx
	jbe	.LBB21_18
	movq	%rdx, %r13
	cmpb	$1, 56(%r15)
	jne	.LBB21_12
	movq	48(%r15), %rbx
	testq	%rbx, %rbx
	je	.LBB21_12
	.p2align	4
.LBB21_16:
	leaq	.Lstatic.71(%rip), %rsi
	movl	$4, %edx
	movq	%r15, %rdi
	callq	"core::fmt::formatter::Formatter::write_raw::<#a09238b4ff3d99c5>"
	testb	%al, %al
	jne	.LBB21_17
	decq	%rbx
	jne	.LBB21_16
.LBB21_12:
	addq	%r12, %r14
	movb	$0, 56(%r15)
	movq	%r15, %rdi
	movq	%r14, %rsi
	movq	%r13, %rdx
	addq	$8, %rsp
	popq	%rbx
	popq	%r12
	popq	%r13
	popq	%r14
	popq	%r15
	popq	%rbp
	jmp	"core::fmt::formatter::Formatter::write_raw::<#a09238b4ff3d99c5>"
.LBB21_17:
	movb	$1, %al
.LBB21_18:
	addq	$8, %rsp
	popq	%rbx
	popq	%r12
	popq	%r13
	popq	%r14
	popq	%r15
	popq	%rbp
	retq
.Lfunc_end21:
	.size	"core::fmt::formatter::Formatter::write_indented::<#a09238b4ff3d99c5>", .Lfunc_end21-"core::fmt::formatter::Formatter::write_indented::<#a09238b4ff3d99c5>"

	.section	".text.core::fmt::formatter::Formatter::write_raw::<#a09238b4ff3d99c5>","ax",@progbits
	.p2align	4
	.type	"core::fmt::formatter::Formatter::write_raw::<#a09238b4ff3d99c5>",@function
"core::fmt::formatter::Formatter::write_raw::<#a09238b4ff3d99c5>":
	testq	%rdx, %rdx
	je	.LBB22_19
	xorl	%ecx, %ecx
	jmp	.LBB22_3
	.p2align	4
.LBB22_2:
	addq	%r10, %rcx
	cmpq	%rdx, %rcx
	jae	.LBB22_19
.LBB22_3:
	movzbl	(%rsi,%rcx), %r8d
	movl	$1, %r10d
	testb	%r8b, %r8b
	jns	.LBB22_2
	leaq	1(%rcx), %r9
	movb	$1, %al
	cmpq	%r9, %rdx
	jbe	.LBB22_18
	movzbl	(%rsi,%r9), %r9d
	testb	%r9b, %r9b
	jns	.LBB22_18
	movzbl	%r9b, %r10d
	cmpb	$-64, %r9b
	movl	$192, %r9d
	cmovbl	%r10d, %r9d
	cmpb	$-62, %r8b
	jb	.LBB22_18
	movl	%r9d, %r10d
	andb	$127, %r10b
	cmpb	$63, %r10b
	ja	.LBB22_18
	movl	$2, %r10d
	cmpb	$-32, %r8b
	jb	.LBB22_2
	leaq	2(%rcx), %r10
	cmpq	%r10, %rdx
	jbe	.LBB22_18
	cmpb	$-65, (%rsi,%r10)
	jg	.LBB22_18
	andl	$127, %r9d
	cmpb	$-17, %r8b
	ja	.LBB22_15
	movl	%r8d, %r10d
	shll	$12, %r10d
	shll	$6, %r9d
	addl	%r10d, %r9d
	addl	$-917504, %r9d
	cmpl	$2048, %r9d
	jb	.LBB22_18
	movl	$3, %r10d
	cmpl	$55296, %r9d
	jb	.LBB22_2
	cmpb	$-18, %r8b
	jae	.LBB22_2
	jmp	.LBB22_18
.LBB22_15:
	leaq	3(%rcx), %r10
	cmpq	%r10, %rdx
	jbe	.LBB22_18
	cmpb	$-65, (%rsi,%r10)
	jg	.LBB22_18
	shll	$18, %r8d
	shll	$12, %r9d
	addl	%r9d, %r8d
	addl	$-62980096, %r8d
	movl	$4, %r10d
	cmpl	$1048575, %r8d
	jbe	.LBB22_2
.LBB22_18:
	retq
.LBB22_19:
	pushq	%r15
	pushq	%r14
	pushq	%r12
	pushq	%rbx
	pushq	%rax
	movq	8(%rdi), %rcx
	movq	16(%rdi), %rbx
	movq	%rbx, %rax
	subq	%rcx, %rax
	cmpq	%rax, %rdx
	ja	.LBB22_43
.LBB22_20:
	leaq	8(%rdi), %rax
	leaq	(%rcx,%rdx), %r14
	movq	(%rdi), %r15
	xorps	%xmm0, %xmm0
	movups	%xmm0, (%rax)
	leaq	(%r15,%rcx), %rax
	movq	%rax, %r8
	subq	%rsi, %r8
	cmpq	%rdx, %r8
	jae	.LBB22_23
	cmpq	$4, %rdx
	jb	.LBB22_22
	cmpq	$32, %r8
	jae	.LBB22_26
.LBB22_22:
	xorl	%r8d, %r8d
.LBB22_35:
	movq	%rdx, %r10
	movq	%r8, %r9
	andq	$3, %r10
	je	.LBB22_38
	movq	%r8, %r9
	.p2align	4
.LBB22_37:
	movzbl	(%rsi,%r9), %r11d
	movb	%r11b, (%rax,%r9)
	incq	%r9
	decq	%r10
	jne	.LBB22_37
.LBB22_38:
	subq	%rdx, %r8
	cmpq	$-4, %r8
	ja	.LBB22_41
	leaq	(%rcx,%r15), %rax
	addq	$3, %rax
	.p2align	4
.LBB22_40:
	movzbl	(%rsi,%r9), %ecx
	movb	%cl, -3(%rax,%r9)
	movzbl	1(%rsi,%r9), %ecx
	movb	%cl, -2(%rax,%r9)
	movzbl	2(%rsi,%r9), %ecx
	movb	%cl, -1(%rax,%r9)
	movzbl	3(%rsi,%r9), %ecx
	movb	%cl, (%rax,%r9)
	addq	$4, %r9
	cmpq	%r9, %rdx
	jne	.LBB22_40
	jmp	.LBB22_41
.LBB22_23:
	movq	%rdi, %r12
	movq	%rax, %rdi
	callq	memmove@PLT
	movq	%r12, %rdi
.LBB22_41:
	movq	%r15, (%rdi)
	movq	%r14, 8(%rdi)
	movq	%rbx, 16(%rdi)
	xorl	%eax, %eax
.LBB22_42:
	addq	$8, %rsp
	popq	%rbx
	popq	%r12
	popq	%r14
	popq	%r15
	retq
.LBB22_26:
	cmpq	$32, %rdx
	jae	.LBB22_28
	xorl	%r8d, %r8d
	jmp	.LBB22_32
.LBB22_28:
	movq	%rdx, %r8
	andq	$-32, %r8
	leaq	(%rcx,%r15), %r9
	addq	$16, %r9
	xorl	%r10d, %r10d
	.p2align	4
.LBB22_29:
	movups	(%rsi,%r10), %xmm0
	movups	16(%rsi,%r10), %xmm1
	movups	%xmm0, -16(%r9,%r10)
	movups	%xmm1, (%r9,%r10)
	addq	$32, %r10
	cmpq	%r10, %r8
	jne	.LBB22_29
	cmpq	%r8, %rdx
	je	.LBB22_41
	testb	$28, %dl
	je	.LBB22_35
.LBB22_32:
	movq	%r8, %r9
	movq	%rdx, %r8
	andq	$-4, %r8
	.p2align	4
.LBB22_33:
	movl	(%rsi,%r9), %r10d
	movl	%r10d, (%rax,%r9)
	addq	$4, %r9
	cmpq	%r9, %r8
	jne	.LBB22_33
	cmpq	%r8, %rdx
	je	.LBB22_41
	jmp	.LBB22_35
.LBB22_43:
	movq	%rdi, %rbx
	movq	%rsi, %r14
	movq	%rdx, %rsi
	movq	%rdx, %r15
	callq	"std_alloc::vec::Vec::grow_amortized::<#1908c79f2a33ade2>"
	movl	%eax, %ecx
	movb	$1, %al
	testb	%cl, %cl
	je	.LBB22_42
	movq	%r14, %rsi
	movq	%r15, %rdx
	movq	%rbx, %rdi
	movq	8(%rbx), %rcx
	movq	16(%rbx), %rbx
	jmp	.LBB22_20
.Lfunc_end22:
	.size	"core::fmt::formatter::Formatter::write_raw::<#a09238b4ff3d99c5>", .Lfunc_end22-"core::fmt::formatter::Formatter::write_raw::<#a09238b4ff3d99c5>"

	.section	".text.unlikely.std_alloc::vec::Vec::grow_amortized::<#0802a6bb4cff063a>","ax",@progbits
	.p2align	4
	.type	"std_alloc::vec::Vec::grow_amortized::<#0802a6bb4cff063a>",@function
"std_alloc::vec::Vec::grow_amortized::<#0802a6bb4cff063a>":
	movq	8(%rdi), %rax
	cmpq	$-1, %rax
	je	.LBB23_5
	pushq	%r14
	pushq	%rbx
	pushq	%rax
	movq	16(%rdi), %rcx
	cmpq	$4, %rax
	movl	$3, %ebx
	cmovaeq	%rax, %rbx
	incq	%rbx
	movq	%rcx, %rsi
	shrq	$62, %rsi
	leaq	(%rcx,%rcx), %rdx
	cmpq	%rdx, %rbx
	cmovaq	%rbx, %rdx
	testq	%rsi, %rsi
	cmoveq	%rdx, %rbx
	movabsq	$384307168202282325, %rsi
	cmpq	%rsi, %rbx
	ja	.LBB23_6
	testq	%rcx, %rcx
	je	.LBB23_8
	movq	%rdi, %r14
	movq	(%rdi), %rdi
	shlq	$3, %rax
	leaq	(%rax,%rax,2), %rsi
	leaq	(,%rbx,8), %rax
	leaq	(%rax,%rax,2), %rdx
	movl	$8, %ecx
	callq	rattle_realloc@PLT
	testb	$1, %al
	je	.LBB23_6
.LBB23_9:
	movq	%rdx, (%r14)
	movq	%rbx, 16(%r14)
	movb	$1, %al
	addq	$8, %rsp
	popq	%rbx
	popq	%r14
	retq
.LBB23_5:
	xorl	%eax, %eax
	retq
.LBB23_8:
	movq	%rdi, %r14
	shlq	$3, %rdx
	leaq	(%rdx,%rdx,2), %rdi
	movl	$8, %esi
	callq	rattle_alloc@PLT
	testb	$1, %al
	jne	.LBB23_9
.LBB23_6:
	xorl	%eax, %eax
	addq	$8, %rsp
	popq	%rbx
	popq	%r14
	retq
.Lfunc_end23:
	.size	"std_alloc::vec::Vec::grow_amortized::<#0802a6bb4cff063a>", .Lfunc_end23-"std_alloc::vec::Vec::grow_amortized::<#0802a6bb4cff063a>"

	.section	.rodata.cst16,"aM",@progbits,16
	.p2align	4, 0x0
.LCPI24_0:
	.byte	69
	.byte	110
	.byte	116
	.byte	101
	.byte	114
	.byte	105
	.byte	110
	.byte	103
	.byte	32
	.byte	69
	.byte	120
	.byte	116
	.byte	101
	.byte	110
	.byte	100
	.byte	101
.LCPI24_1:
	.byte	100
	.byte	32
	.byte	80
	.byte	97
	.byte	115
	.byte	115
	.byte	105
	.byte	118
	.byte	101
	.byte	32
	.byte	77
	.byte	111
	.byte	100
	.byte	101
	.byte	32
	.byte	40
	.section	".text.unlikely.unftp_control_commands::epsv::make_epsv_reply","ax",@progbits
	.p2align	4
	.type	"unftp_control_commands::epsv::make_epsv_reply",@function
"unftp_control_commands::epsv::make_epsv_reply":
	pushq	%r14
	pushq	%rbx
	subq	$280, %rsp
	movq	%rdi, %rbx
	xorps	%xmm0, %xmm0
	movaps	%xmm0, 208(%rsp)
	movaps	%xmm0, 192(%rsp)
	movaps	%xmm0, 176(%rsp)
	movaps	%xmm0, 160(%rsp)
	movaps	%xmm0, 144(%rsp)
	movaps	%xmm0, 128(%rsp)
	movaps	%xmm0, 112(%rsp)
	movq	$0, 224(%rsp)
	movaps	%xmm0, 240(%rsp)
	movups	%xmm0, 255(%rsp)
	movups	%xmm0, 24(%rsp)
	movl	$0, 73(%rsp)
	movl	$0, 76(%rsp)
	leaq	15(%rsp), %rax
	movq	%rax, 16(%rsp)
	movq	$0, 64(%rsp)
	movb	$0, 72(%rsp)
	movl	$32, 40(%rsp)
	movq	$0, 44(%rsp)
	movl	$0, 52(%rsp)
	movq	$-1, 56(%rsp)
	leaq	16(%rsp), %rdi
	movl	$35, %esi
	callq	"std_alloc::vec::Vec::grow_amortized::<#1908c79f2a33ade2>"
	testb	%al, %al
	je	.LBB24_17
	leaq	44(%rsp), %r14
	movq	16(%rsp), %rcx
	movq	24(%rsp), %rax
	leaq	(%rcx,%rax), %rdx
	addq	$35, %rax
	leaq	.Lstatic.73(%rip), %rsi
	movq	%rdx, %rdi
	subq	%rsi, %rdi
	cmpq	$34, %rdi
	ja	.LBB24_3
	movaps	.LCPI24_0(%rip), %xmm0
	movups	%xmm0, (%rdx)
	movaps	.LCPI24_1(%rip), %xmm0
	movups	%xmm0, 16(%rdx)
	movw	$31868, 32(%rdx)
	movb	$124, 34(%rdx)
	jmp	.LBB24_4
.LBB24_3:
	movups	.Lstatic.73+16(%rip), %xmm0
	movups	%xmm0, 16(%rdx)
	movups	.Lstatic.73(%rip), %xmm0
	movups	%xmm0, (%rdx)
	movl	$2088533032, 31(%rdx)
.LBB24_4:
	movq	32(%rsp), %rdx
	movq	%rax, 24(%rsp)
	movl	$32, 40(%rsp)
	movl	$0, 8(%r14)
	movq	$0, (%r14)
	movq	$-1, 56(%rsp)
	xorps	%xmm0, %xmm0
	movaps	%xmm0, 80(%rsp)
	movabsq	$3616727144610136064, %rsi
	movq	%rsi, 95(%rsp)
	movb	$49, 103(%rsp)
	cmpq	$0, 64(%rsp)
	jne	.LBB24_9
	movq	%rdx, %rsi
	subq	%rax, %rsi
	cmpq	$3, %rsi
	jbe	.LBB24_6
.LBB24_8:
	movl	100(%rsp), %esi
	movl	%esi, (%rcx,%rax)
	addq	$4, %rax
	movq	%rax, 24(%rsp)
	movq	%rdx, 32(%rsp)
.LBB24_10:
	movl	$32, 40(%rsp)
	movl	$0, 8(%r14)
	movq	$0, (%r14)
	movq	$-1, 56(%rsp)
	cmpq	$0, 64(%rsp)
	jne	.LBB24_15
	movq	24(%rsp), %rcx
	movq	32(%rsp), %rax
	movq	%rax, %rdx
	subq	%rcx, %rdx
	cmpq	$1, %rdx
	jbe	.LBB24_12
.LBB24_14:
	leaq	2(%rcx), %rdx
	addq	16(%rsp), %rcx
	leaq	.Lstatic.74(%rip), %rsi
	movq	%rcx, %rdi
	subq	%rsi, %rdi
	cmpq	$1, %rdi
	movw	$10620, (%rcx)
	movq	%rdx, 24(%rsp)
	movq	%rax, 32(%rsp)
.LBB24_16:
	movq	32(%rsp), %rax
	movq	%rax, 263(%rsp)
	movups	16(%rsp), %xmm0
	movups	%xmm0, 247(%rsp)
	movaps	%xmm0, 112(%rsp)
	movq	%rax, 128(%rsp)
	movq	$0, (%rbx)
	movq	$4865, 8(%rbx)
	movaps	112(%rsp), %xmm0
	movq	128(%rsp), %rax
	movq	136(%rsp), %rcx
	movaps	144(%rsp), %xmm1
	movaps	160(%rsp), %xmm2
	movups	%xmm0, 16(%rbx)
	movq	%rax, 32(%rbx)
	movq	%rcx, 40(%rbx)
	movups	%xmm1, 48(%rbx)
	movups	%xmm2, 64(%rbx)
	movaps	176(%rsp), %xmm0
	movups	%xmm0, 80(%rbx)
	movaps	192(%rsp), %xmm0
	movups	%xmm0, 96(%rbx)
	movaps	208(%rsp), %xmm0
	movups	%xmm0, 112(%rbx)
	movq	224(%rsp), %rax
	movq	%rax, 128(%rbx)
	addq	$280, %rsp
	popq	%rbx
	popq	%r14
	retq
.LBB24_9:
	leaq	100(%rsp), %rsi
	leaq	16(%rsp), %rdi
	movl	$4, %edx
	callq	"core::fmt::formatter::Formatter::write_indented::<#a09238b4ff3d99c5>"
	testb	%al, %al
	jne	.LBB24_17
	jmp	.LBB24_10
.LBB24_6:
	leaq	16(%rsp), %rdi
	movl	$4, %esi
	callq	"std_alloc::vec::Vec::grow_amortized::<#1908c79f2a33ade2>"
	testb	%al, %al
	je	.LBB24_17
	movq	16(%rsp), %rcx
	movq	24(%rsp), %rax
	movq	32(%rsp), %rdx
	jmp	.LBB24_8
.LBB24_15:
	leaq	.Lstatic.74(%rip), %rsi
	leaq	16(%rsp), %rdi
	movl	$2, %edx
	callq	"core::fmt::formatter::Formatter::write_indented::<#a09238b4ff3d99c5>"
	testb	%al, %al
	jne	.LBB24_17
	jmp	.LBB24_16
.LBB24_12:
	leaq	16(%rsp), %rdi
	movl	$2, %esi
	callq	"std_alloc::vec::Vec::grow_amortized::<#1908c79f2a33ade2>"
	testb	%al, %al
	je	.LBB24_17
	movq	24(%rsp), %rcx
	movq	32(%rsp), %rax
	jmp	.LBB24_14
.LBB24_17:
	cmpq	$0, 32(%rsp)
	je	.LBB24_19
	movq	16(%rsp), %rdi
	callq	rattle_dealloc@PLT
.LBB24_19:
	movq	$1, (%rbx)
	movq	$10, 8(%rbx)
	xorps	%xmm0, %xmm0
	movups	%xmm0, 16(%rbx)
	movups	%xmm0, 32(%rbx)
	movups	%xmm0, 48(%rbx)
	movups	%xmm0, 64(%rbx)
	movups	%xmm0, 80(%rbx)
	movups	%xmm0, 96(%rbx)
	movups	%xmm0, 112(%rbx)
	movq	$0, 128(%rbx)
	addq	$280, %rsp
	popq	%rbx
	popq	%r14
	retq
.Lfunc_end24:
	.size	"unftp_control_commands::epsv::make_epsv_reply", .Lfunc_end24-"unftp_control_commands::epsv::make_epsv_reply"

	.section	".text.unlikely.control_demo::responses::answer_mlst","ax",@progbits
	.p2align	4
	.type	"control_demo::responses::answer_mlst",@function
"control_demo::responses::answer_mlst":
	pushq	%r15
	pushq	%r14
	pushq	%r13
	pushq	%r12
	pushq	%rbx
	subq	$144, %rsp
	movq	%rdi, %rbx
	movzbl	(%rsi), %eax
	movq	8(%rsi), %r14
	movq	16(%rsi), %rdx
	movq	24(%rsi), %r12
	xorps	%xmm0, %xmm0
	movaps	%xmm0, 112(%rsp)
	movaps	%xmm0, 96(%rsp)
	movaps	%xmm0, 80(%rsp)
	movaps	%xmm0, 64(%rsp)
	movaps	%xmm0, 48(%rsp)
	movaps	%xmm0, 32(%rsp)
	movaps	%xmm0, 16(%rsp)
	movaps	%xmm0, (%rsp)
	movq	$0, 128(%rsp)
	leaq	8(%rsp), %r15
	cmpb	$1, %al
	jne	.LBB25_5
	movq	%rsp, %rdi
	movq	%r14, %rsi
	callq	"unftp_control_commands::listing::facts_reply"
	movzbl	(%rsp), %r13d
	testq	%r12, %r12
	je	.LBB25_3
	movq	%r14, %rdi
	callq	rattle_dealloc@PLT
.LBB25_3:
	movq	%r13, (%rbx)
	jmp	.LBB25_4
.LBB25_5:
	leaq	.Lstatic.84(%rip), %rsi
	movq	%rsp, %rdi
	movl	$1, %edx
	callq	"unftp_control_commands::listing::facts_reply"
	movzbl	(%rsp), %eax
	movq	%rax, (%rbx)
.LBB25_4:
	movups	(%r15), %xmm0
	movups	16(%r15), %xmm1
	movups	32(%r15), %xmm2
	movups	48(%r15), %xmm3
	movups	%xmm0, 8(%rbx)
	movups	%xmm1, 24(%rbx)
	movups	%xmm2, 40(%rbx)
	movups	%xmm3, 56(%rbx)
	movups	64(%r15), %xmm0
	movups	%xmm0, 72(%rbx)
	movups	80(%r15), %xmm0
	movups	%xmm0, 88(%rbx)
	movups	96(%r15), %xmm0
	movups	%xmm0, 104(%rbx)
	movups	112(%r15), %xmm0
	movups	%xmm0, 120(%rbx)
	addq	$144, %rsp
	popq	%rbx
	popq	%r12
	popq	%r13
	popq	%r14
	popq	%r15
	retq
.Lfunc_end25:
	.size	"control_demo::responses::answer_mlst", .Lfunc_end25-"control_demo::responses::answer_mlst"

	.section	.rodata.cst16,"aM",@progbits,16
	.p2align	4, 0x0
.LCPI26_0:
	.byte	116
	.byte	121
	.byte	112
	.byte	101
	.byte	61
	.byte	102
	.byte	105
	.byte	108
	.byte	101
	.byte	59
	.byte	115
	.byte	105
	.byte	122
	.byte	101
	.byte	61
	.byte	49
.LCPI26_1:
	.byte	50
	.byte	51
	.byte	52
	.byte	59
	.byte	109
	.byte	111
	.byte	100
	.byte	105
	.byte	102
	.byte	121
	.byte	61
	.byte	50
	.byte	48
	.byte	50
	.byte	51
	.byte	49
	.section	".text.unlikely.unftp_control_commands::listing::facts_reply","ax",@progbits
	.p2align	4
	.type	"unftp_control_commands::listing::facts_reply",@function
"unftp_control_commands::listing::facts_reply":
	pushq	%rbp
	pushq	%r15
	pushq	%r14
	pushq	%r13
	pushq	%r12
	pushq	%rbx
	subq	$184, %rsp
	movq	%rdx, %r13
	movq	%rsi, %rbp
	movq	%rdi, %rbx
	xorps	%xmm0, %xmm0
	movaps	%xmm0, 160(%rsp)
	movaps	%xmm0, 144(%rsp)
	movaps	%xmm0, 128(%rsp)
	movaps	%xmm0, 112(%rsp)
	movaps	%xmm0, 96(%rsp)
	movaps	%xmm0, 80(%rsp)
	movups	%xmm0, 16(%rsp)
	movl	$0, 65(%rsp)
	movl	$0, 68(%rsp)
	leaq	7(%rsp), %r14
	movq	%r14, 8(%rsp)
	movq	$0, 56(%rsp)
	movb	$0, 64(%rsp)
	movl	$32, 32(%rsp)
	movq	$0, 36(%rsp)
	movl	$0, 44(%rsp)
	movq	$-1, 48(%rsp)
	leaq	8(%rsp), %rdi
	movl	$1, %esi
	callq	"std_alloc::vec::Vec::grow_amortized::<#1908c79f2a33ade2>"
	testb	%al, %al
	je	.LBB26_62
	leaq	36(%rsp), %r15
	movq	24(%rsp), %rax
	movq	8(%rsp), %rcx
	movq	16(%rsp), %rdx
	movb	$32, (%rcx,%rdx)
	incq	%rdx
	movq	%rdx, 16(%rsp)
	movl	$32, 32(%rsp)
	movl	$0, 8(%r15)
	movq	$0, (%r15)
	movq	$-1, 48(%rsp)
	cmpq	$0, 56(%rsp)
	jne	.LBB26_20
	movq	%rax, %rsi
	subq	%rdx, %rsi
	cmpq	$41, %rsi
	jbe	.LBB26_21
.LBB26_3:
	leaq	(%rcx,%rdx), %rsi
	addq	$42, %rdx
	leaq	.Lstatic.83(%rip), %rdi
	movq	%rsi, %r8
	subq	%rdi, %r8
	cmpq	$41, %r8
	ja	.LBB26_5
	movaps	.LCPI26_0(%rip), %xmm0
	movups	%xmm0, (%rsi)
	movaps	.LCPI26_1(%rip), %xmm0
	movups	%xmm0, 16(%rsi)
	movl	$825307186, 32(%rsi)
	movb	$50, 36(%rsi)
	movl	$808464432, 37(%rsi)
	movb	$59, 41(%rsi)
	jmp	.LBB26_6
.LBB26_5:
	movups	.Lstatic.83+26(%rip), %xmm0
	movups	%xmm0, 26(%rsi)
	movups	.Lstatic.83+16(%rip), %xmm0
	movups	%xmm0, 16(%rsi)
	movups	.Lstatic.83(%rip), %xmm0
	movups	%xmm0, (%rsi)
.LBB26_6:
	movq	%rcx, 8(%rsp)
	movq	%rdx, 16(%rsp)
	movq	%rax, 24(%rsp)
.LBB26_7:
	movl	$32, 32(%rsp)
	movl	$0, 8(%r15)
	movq	$0, (%r15)
	movq	$-1, 48(%rsp)
	cmpq	$0, 56(%rsp)
	jne	.LBB26_23
	movq	16(%rsp), %rax
	movq	24(%rsp), %rcx
	cmpq	%rax, %rcx
	je	.LBB26_24
.LBB26_9:
	movq	8(%rsp), %rdx
	movb	$32, (%rdx,%rax)
	incq	%rax
	movq	%rax, 16(%rsp)
	movq	%rcx, 24(%rsp)
.LBB26_10:
	movl	$32, 32(%rsp)
	movl	$0, 8(%r15)
	movq	$0, (%r15)
	movq	$-1, 48(%rsp)
	cmpq	$0, 56(%rsp)
	jne	.LBB26_26
	movq	16(%rsp), %rax
	movq	24(%rsp), %rdx
	movq	%rdx, %rcx
	subq	%rax, %rcx
	cmpq	%rcx, %r13
	ja	.LBB26_60
.LBB26_12:
	leaq	(%rax,%r13), %r12
	movq	8(%rsp), %r15
	leaq	(%r15,%rax), %rdi
	movq	%rdi, %rcx
	subq	%rbp, %rcx
	cmpq	%r13, %rcx
	movq	%rdx, 72(%rsp)
	jae	.LBB26_15
	cmpq	$4, %r13
	jb	.LBB26_14
	cmpq	$32, %rcx
	jae	.LBB26_18
.LBB26_14:
	xorl	%ecx, %ecx
.LBB26_35:
	movq	%r13, %rsi
	movq	%rcx, %rdx
	andq	$3, %rsi
	je	.LBB26_38
	movq	%rcx, %rdx
	.p2align	4
.LBB26_37:
	movzbl	(%rbp,%rdx), %r8d
	movb	%r8b, (%rdi,%rdx)
	incq	%rdx
	decq	%rsi
	jne	.LBB26_37
.LBB26_38:
	subq	%r13, %rcx
	cmpq	$-4, %rcx
	ja	.LBB26_41
	addq	%r15, %rax
	addq	$3, %rax
	.p2align	4
.LBB26_40:
	movzbl	(%rbp,%rdx), %ecx
	movb	%cl, -3(%rax,%rdx)
	movzbl	1(%rbp,%rdx), %ecx
	movb	%cl, -2(%rax,%rdx)
	movzbl	2(%rbp,%rdx), %ecx
	movb	%cl, -1(%rax,%rdx)
	movzbl	3(%rbp,%rdx), %ecx
	movb	%cl, (%rax,%rdx)
	addq	$4, %rdx
	cmpq	%rdx, %r13
	jne	.LBB26_40
	jmp	.LBB26_41
.LBB26_15:
	movq	%rbp, %rsi
	movq	%r13, %rdx
	callq	memmove@PLT
.LBB26_41:
	movl	$72, %edi
	movl	$8, %esi
	callq	rattle_alloc@PLT
	testb	$1, %al
	je	.LBB26_52
	movq	%rdx, %r13
	movl	$8, %edi
	movl	$1, %esi
	callq	rattle_alloc@PLT
	testb	$1, %al
	je	.LBB26_54
	leaq	.Lstatic.85(%rip), %rax
	movq	%rdx, %rcx
	subq	%rax, %rcx
	cmpq	$8, %rcx
	movabsq	$7453010382218152992, %rax
	movq	%rax, (%rdx)
	movq	%rdx, (%r13)
	movq	$8, 8(%r13)
	movq	$8, 16(%r13)
	testq	%r12, %r12
	je	.LBB26_47
	movl	$1, %ebp
	js	.LBB26_82
	movl	$1, %esi
	movq	%r12, %rdi
	callq	rattle_alloc@PLT
	testb	$1, %al
	je	.LBB26_82
	movq	%rdx, %r14
.LBB26_47:
	movq	%r14, %rcx
	subq	%r15, %rcx
	cmpq	%r12, %rcx
	jae	.LBB26_59
	xorl	%eax, %eax
	cmpq	$4, %r12
	jb	.LBB26_74
	cmpq	$32, %rcx
	jb	.LBB26_74
	cmpq	$32, %r12
	jae	.LBB26_67
	xorl	%eax, %eax
	jmp	.LBB26_71
.LBB26_52:
	cmpq	$0, 72(%rsp)
	je	.LBB26_65
	movq	%r15, %rdi
	jmp	.LBB26_64
.LBB26_54:
	xorps	%xmm0, %xmm0
	movaps	%xmm0, 160(%rsp)
	movaps	%xmm0, 144(%rsp)
	movaps	%xmm0, 128(%rsp)
	movaps	%xmm0, 112(%rsp)
	movaps	%xmm0, 96(%rsp)
	movaps	%xmm0, 80(%rsp)
.LBB26_55:
	movq	%r13, %rdi
	callq	rattle_dealloc@PLT
	cmpq	$0, 72(%rsp)
	je	.LBB26_57
	movq	%r15, %rdi
	callq	rattle_dealloc@PLT
.LBB26_57:
	movq	$1, (%rbx)
	movq	$10, 8(%rbx)
	xorps	%xmm0, %xmm0
	movups	%xmm0, 16(%rbx)
	movq	$0, 32(%rbx)
.LBB26_58:
	movaps	80(%rsp), %xmm0
	movaps	96(%rsp), %xmm1
	movaps	112(%rsp), %xmm2
	movaps	128(%rsp), %xmm3
	movups	%xmm0, 40(%rbx)
	movups	%xmm1, 56(%rbx)
	movups	%xmm2, 72(%rbx)
	movups	%xmm3, 88(%rbx)
	movaps	144(%rsp), %xmm0
	movups	%xmm0, 104(%rbx)
	movaps	160(%rsp), %xmm0
	movups	%xmm0, 120(%rbx)
	jmp	.LBB26_66
.LBB26_18:
	cmpq	$32, %r13
	jae	.LBB26_28
	xorl	%ecx, %ecx
	jmp	.LBB26_32
.LBB26_20:
	leaq	.Lstatic.83(%rip), %rsi
	leaq	8(%rsp), %rdi
	movl	$42, %edx
	callq	"core::fmt::formatter::Formatter::write_indented::<#a09238b4ff3d99c5>"
	testb	%al, %al
	jne	.LBB26_62
	jmp	.LBB26_7
.LBB26_59:
	movq	%r14, %rdi
	movq	%r15, %rsi
	movq	%r12, %rdx
	callq	memmove@PLT
	jmp	.LBB26_79
.LBB26_21:
	leaq	8(%rsp), %rdi
	movl	$42, %esi
	callq	"std_alloc::vec::Vec::grow_amortized::<#1908c79f2a33ade2>"
	testb	%al, %al
	je	.LBB26_62
	movq	8(%rsp), %rcx
	movq	16(%rsp), %rdx
	movq	24(%rsp), %rax
	jmp	.LBB26_3
.LBB26_23:
	leaq	.Lstatic.70(%rip), %rsi
	leaq	8(%rsp), %rdi
	movl	$1, %edx
	callq	"core::fmt::formatter::Formatter::write_indented::<#a09238b4ff3d99c5>"
	testb	%al, %al
	jne	.LBB26_62
	jmp	.LBB26_10
.LBB26_24:
	leaq	8(%rsp), %rdi
	movl	$1, %esi
	callq	"std_alloc::vec::Vec::grow_amortized::<#1908c79f2a33ade2>"
	testb	%al, %al
	je	.LBB26_62
	movq	16(%rsp), %rax
	movq	24(%rsp), %rcx
	jmp	.LBB26_9
.LBB26_26:
	leaq	8(%rsp), %rdi
	movq	%rbp, %rsi
	movq	%r13, %rdx
	callq	"core::fmt::formatter::Formatter::write_indented::<#a09238b4ff3d99c5>"
	testb	%al, %al
	jne	.LBB26_62
	movq	24(%rsp), %rax
	movq	%rax, 72(%rsp)
	movq	8(%rsp), %r15
	movq	16(%rsp), %r12
	jmp	.LBB26_41
.LBB26_28:
	movq	%r13, %rcx
	andq	$-32, %rcx
	leaq	(%rax,%r15), %rdx
	addq	$16, %rdx
	xorl	%esi, %esi
	.p2align	4
.LBB26_29:
	movups	(%rbp,%rsi), %xmm0
	movups	16(%rbp,%rsi), %xmm1
	movups	%xmm0, -16(%rdx,%rsi)
	movups	%xmm1, (%rdx,%rsi)
	addq	$32, %rsi
	cmpq	%rsi, %rcx
	jne	.LBB26_29
	cmpq	%rcx, %r13
	je	.LBB26_41
	testb	$28, %r13b
	je	.LBB26_35
.LBB26_32:
	movq	%rcx, %rdx
	movq	%r13, %rcx
	andq	$-4, %rcx
	.p2align	4
.LBB26_33:
	movl	(%rbp,%rdx), %esi
	movl	%esi, (%rdi,%rdx)
	addq	$4, %rdx
	cmpq	%rdx, %rcx
	jne	.LBB26_33
	cmpq	%rcx, %r13
	je	.LBB26_41
	jmp	.LBB26_35
.LBB26_60:
	leaq	8(%rsp), %rdi
	movq	%r13, %rsi
	callq	"std_alloc::vec::Vec::grow_amortized::<#1908c79f2a33ade2>"
	testb	%al, %al
	je	.LBB26_62
	movq	16(%rsp), %rax
	movq	24(%rsp), %rdx
	jmp	.LBB26_12
.LBB26_62:
	cmpq	$0, 24(%rsp)
	je	.LBB26_65
	movq	8(%rsp), %rdi
.LBB26_64:
	callq	rattle_dealloc@PLT
.LBB26_65:
	movq	$1, (%rbx)
	movq	$10, 8(%rbx)
	xorps	%xmm0, %xmm0
	movups	%xmm0, 16(%rbx)
	movups	%xmm0, 32(%rbx)
	movups	%xmm0, 48(%rbx)
	movups	%xmm0, 64(%rbx)
	movups	%xmm0, 80(%rbx)
	movups	%xmm0, 96(%rbx)
	movups	%xmm0, 112(%rbx)
	movq	$0, 128(%rbx)
.LBB26_66:
	addq	$184, %rsp
	popq	%rbx
	popq	%r12
	popq	%r13
	popq	%r14
	popq	%r15
	popq	%rbp
	retq
.LBB26_67:
	movq	%r12, %rax
	andq	$-32, %rax
	xorl	%ecx, %ecx
	.p2align	4
.LBB26_68:
	movups	(%r15,%rcx), %xmm0
	movups	16(%r15,%rcx), %xmm1
	movups	%xmm0, (%r14,%rcx)
	movups	%xmm1, 16(%r14,%rcx)
	addq	$32, %rcx
	cmpq	%rcx, %rax
	jne	.LBB26_68
	cmpq	%rax, %r12
	je	.LBB26_79
	testb	$28, %r12b
	je	.LBB26_74
.LBB26_71:
	movq	%rax, %rcx
	movq	%r12, %rax
	andq	$-4, %rax
	.p2align	4
.LBB26_72:
	movl	(%r15,%rcx), %edx
	movl	%edx, (%r14,%rcx)
	addq	$4, %rcx
	cmpq	%rcx, %rax
	jne	.LBB26_72
	cmpq	%rax, %r12
	je	.LBB26_79
.LBB26_74:
	movq	%r12, %rdx
	movq	%rax, %rcx
	andq	$3, %rdx
	je	.LBB26_77
	movq	%rax, %rcx
	.p2align	4
.LBB26_76:
	movzbl	(%r15,%rcx), %esi
	movb	%sil, (%r14,%rcx)
	incq	%rcx
	decq	%rdx
	jne	.LBB26_76
.LBB26_77:
	subq	%r12, %rax
	cmpq	$-4, %rax
	ja	.LBB26_79
	.p2align	4
.LBB26_78:
	movzbl	(%r15,%rcx), %eax
	movb	%al, (%r14,%rcx)
	movzbl	1(%r15,%rcx), %eax
	movb	%al, 1(%r14,%rcx)
	movzbl	2(%r15,%rcx), %eax
	movb	%al, 2(%r14,%rcx)
	movzbl	3(%r15,%rcx), %eax
	movb	%al, 3(%r14,%rcx)
	addq	$4, %rcx
	cmpq	%rcx, %r12
	jne	.LBB26_78
.LBB26_79:
	movq	%r14, 24(%r13)
	movq	%r12, 32(%r13)
	movq	%r12, 40(%r13)
	movl	$3, %edi
	movl	$1, %esi
	callq	rattle_alloc@PLT
	movl	$2, %ebp
	testb	$1, %al
	je	.LBB26_82
	leaq	.Lstatic.86(%rip), %rax
	movq	%rdx, %rcx
	subq	%rax, %rcx
	cmpq	$3, %rcx
	jae	.LBB26_86
	movw	$28229, (%rdx)
	movb	$100, 2(%rdx)
	jmp	.LBB26_87
.LBB26_82:
	xorps	%xmm0, %xmm0
	movaps	%xmm0, 160(%rsp)
	movaps	%xmm0, 144(%rsp)
	movaps	%xmm0, 128(%rsp)
	movaps	%xmm0, 112(%rsp)
	movaps	%xmm0, 96(%rsp)
	movaps	%xmm0, 80(%rsp)
	shll	$3, %ebp
	leaq	(,%rbp,2), %r14
	addq	%rbp, %r14
	xorl	%r12d, %r12d
	jmp	.LBB26_84
	.p2align	4
.LBB26_83:
	addq	$24, %r12
	cmpq	%r12, %r14
	je	.LBB26_55
.LBB26_84:
	cmpq	$0, 16(%r13,%r12)
	je	.LBB26_83
	movq	(%r13,%r12), %rdi
	callq	rattle_dealloc@PLT
	jmp	.LBB26_83
.LBB26_86:
	movb	$100, 2(%rdx)
	movw	$28229, (%rdx)
.LBB26_87:
	movq	72(%rsp), %rax
	movq	%rdx, 48(%r13)
	movq	$3, 56(%r13)
	movq	$3, 64(%r13)
	testq	%rax, %rax
	je	.LBB26_89
	movq	%r15, %rdi
	callq	rattle_dealloc@PLT
.LBB26_89:
	movq	$0, (%rbx)
	movq	$5890, 8(%rbx)
	movq	%r13, 16(%rbx)
	movq	$3, 24(%rbx)
	movq	$3, 32(%rbx)
	jmp	.LBB26_58
.Lfunc_end26:
	.size	"unftp_control_commands::listing::facts_reply", .Lfunc_end26-"unftp_control_commands::listing::facts_reply"

	.section	".text.unlikely.std_alloc::vec::Vec::grow_amortized::<#79675877bf17c286>","ax",@progbits
	.p2align	4
	.type	"std_alloc::vec::Vec::grow_amortized::<#79675877bf17c286>",@function
"std_alloc::vec::Vec::grow_amortized::<#79675877bf17c286>":
	movq	%rsi, %rax
	movq	8(%rdi), %rsi
	addq	%rsi, %rax
	jae	.LBB27_2
	xorl	%eax, %eax
	retq
.LBB27_2:
	pushq	%r14
	pushq	%rbx
	pushq	%rax
	cmpq	$9, %rax
	movl	$8, %ebx
	cmovaeq	%rax, %rbx
	movq	16(%rdi), %rcx
	movq	%rcx, %rdx
	shrq	$62, %rdx
	leaq	(%rcx,%rcx), %rax
	cmpq	%rax, %rbx
	cmovaq	%rbx, %rax
	testq	%rdx, %rdx
	cmoveq	%rax, %rbx
	testq	%rbx, %rbx
	js	.LBB27_6
	testq	%rcx, %rcx
	je	.LBB27_8
	movq	%rdi, %r14
	movq	(%rdi), %rdi
	movl	$1, %ecx
	movq	%rbx, %rdx
	callq	rattle_realloc@PLT
	testb	$1, %al
	je	.LBB27_6
.LBB27_9:
	movq	%rdx, (%r14)
	movq	%rbx, 16(%r14)
	movb	$1, %al
	addq	$8, %rsp
	popq	%rbx
	popq	%r14
	retq
.LBB27_8:
	movq	%rdi, %r14
	movl	$1, %esi
	movq	%rax, %rdi
	callq	rattle_alloc@PLT
	testb	$1, %al
	jne	.LBB27_9
.LBB27_6:
	xorl	%eax, %eax
	addq	$8, %rsp
	popq	%rbx
	popq	%r14
	retq
.Lfunc_end27:
	.size	"std_alloc::vec::Vec::grow_amortized::<#79675877bf17c286>", .Lfunc_end27-"std_alloc::vec::Vec::grow_amortized::<#79675877bf17c286>"

	.section	.rodata.cst16,"aM",@progbits,16
	.p2align	4, 0x0
.LCPI28_0:
	.zero	16,46
.LCPI28_1:
	.quad	8458358670138239095
	.quad	3327647951695996518
.LCPI28_2:
	.quad	8367798494427701606
	.quad	2334399978102268015
.LCPI28_3:
	.byte	2
	.byte	23
	.byte	28
	.byte	0
	.zero	1
	.zero	1
	.zero	1
	.zero	1
	.zero	1
	.zero	1
	.zero	1
	.zero	1
	.zero	1
	.zero	1
	.zero	1
	.zero	1
.LCPI28_4:
	.byte	0
	.byte	35
	.byte	0
	.byte	0
	.zero	1
	.zero	1
	.zero	1
	.zero	1
	.zero	1
	.zero	1
	.zero	1
	.zero	1
	.zero	1
	.zero	1
	.zero	1
	.zero	1
.LCPI28_5:
	.byte	0
	.byte	35
	.byte	0
	.byte	0
	.byte	0
	.byte	0
	.byte	0
	.byte	0
	.byte	0
	.byte	0
	.byte	0
	.byte	0
	.byte	0
	.byte	0
	.byte	0
	.byte	0
.LCPI28_6:
	.byte	2
	.byte	23
	.byte	28
	.byte	0
	.byte	0
	.byte	0
	.byte	0
	.byte	0
	.byte	0
	.byte	0
	.byte	0
	.byte	0
	.byte	0
	.byte	0
	.byte	0
	.byte	0
	.section	".text.std_io::io::buffer::Buffer::flush","ax",@progbits
	.p2align	4
	.type	"std_io::io::buffer::Buffer::flush",@function
"std_io::io::buffer::Buffer::flush":
	pushq	%rbp
	pushq	%r15
	pushq	%r14
	pushq	%r13
	pushq	%r12
	pushq	%rbx
	subq	$136, %rsp
	movq	1032(%rdi), %r15
	movq	$0, 1032(%rdi)
	cmpq	$1025, %r15
	jae	.LBB28_15
	movq	%rdi, %rbx
	movl	(%rdi), %ebp
	movq	$-64, %r12
	xorl	%r13d, %r13d
	jmp	.LBB28_4
	.p2align	4
.LBB28_2:
	callq	rattle_errno@PLT
	cmpl	$4, %eax
	jne	.LBB28_13
	incq	%r12
	cmpq	%r12, %r15
	je	.LBB28_8
.LBB28_4:
	movq	%r15, %r14
	subq	%r13, %r14
	jbe	.LBB28_10
	leaq	4(%rbx), %rax
	leaq	(%rax,%r13), %rsi
	movl	%ebp, %edi
	movq	%r14, %rdx
	callq	write@PLT
	testq	%rax, %rax
	js	.LBB28_2
	je	.LBB28_11
	cmpq	%r14, %rax
	cmovbq	%rax, %r14
	addq	%r14, %r13
	incq	%r12
	cmpq	%r12, %r15
	jne	.LBB28_4
.LBB28_8:
	cmpq	%r13, %r15
	jbe	.LBB28_10
	xorps	%xmm0, %xmm0
	movaps	%xmm0, 32(%rsp)
	movaps	%xmm0, 16(%rsp)
	movaps	%xmm0, (%rsp)
	movss	.LCPI28_5(%rip), %xmm1
	movl	$4, %eax
	xorps	%xmm2, %xmm2
	jmp	.LBB28_14
.LBB28_10:
	movb	$1, %al
	jmp	.LBB28_16
.LBB28_11:
	movaps	.LCPI28_0(%rip), %xmm0
	movaps	%xmm0, 32(%rsp)
	movaps	%xmm0, 16(%rsp)
	movaps	%xmm0, (%rsp)
	movaps	.LCPI28_1(%rip), %xmm2
	movaps	.LCPI28_2(%rip), %xmm0
	movss	.LCPI28_6(%rip), %xmm1
	xorl	%eax, %eax
	jmp	.LBB28_14
.LBB28_13:
	leaq	48(%rsp), %rdi
	movl	%eax, %esi
	callq	"std_io::io::error::Error::from_raw_os_error"
	movsd	48(%rsp), %xmm1
	movl	52(%rsp), %eax
	movups	56(%rsp), %xmm0
	movups	72(%rsp), %xmm2
	movups	88(%rsp), %xmm3
	movaps	%xmm3, (%rsp)
	movups	104(%rsp), %xmm3
	movaps	%xmm3, 16(%rsp)
	movups	120(%rsp), %xmm3
	movaps	%xmm3, 32(%rsp)
.LBB28_14:
	movq	$1, 1040(%rbx)
	movss	%xmm1, 1048(%rbx)
	movl	%eax, 1052(%rbx)
	movups	%xmm0, 1056(%rbx)
	movups	%xmm2, 1072(%rbx)
	movaps	(%rsp), %xmm0
	movaps	16(%rsp), %xmm1
	movaps	32(%rsp), %xmm2
	movups	%xmm0, 1088(%rbx)
	movups	%xmm1, 1104(%rbx)
	movups	%xmm2, 1120(%rbx)
.LBB28_15:
	xorl	%eax, %eax
.LBB28_16:
	addq	$136, %rsp
	popq	%rbx
	popq	%r12
	popq	%r13
	popq	%r14
	popq	%r15
	popq	%rbp
	retq
.Lfunc_end28:
	.size	"std_io::io::buffer::Buffer::flush", .Lfunc_end28-"std_io::io::buffer::Buffer::flush"

	.section	".text.unlikely.core::fmt::formatter::Formatter::write_indented::<#bf264aed5fa78656>","ax",@progbits
	.p2align	4
	.type	"core::fmt::formatter::Formatter::write_indented::<#bf264aed5fa78656>",@function
"core::fmt::formatter::Formatter::write_indented::<#bf264aed5fa78656>":
	pushq	%rbp
	pushq	%r15
	pushq	%r14
	pushq	%r13
	pushq	%r12
	pushq	%rbx
	pushq	%rax
	testq	%rdx, %rdx
	je	.LBB29_1
	movq	%rsi, %r14
	movq	%rdi, %r15
	xorl	%ecx, %ecx
	xorl	%ebp, %ebp
	movq	%rdx, (%rsp)
	jmp	.LBB29_3
	.p2align	4
.LBB29_7:
	addq	%r14, %r13
	movb	$1, 1168(%r15)
	movq	%r15, %rdi
	movq	%r13, %rsi
	movq	%r12, %rdx
	callq	"core::fmt::formatter::Formatter::write_raw::<#bf264aed5fa78656>"
	movq	%rbp, %rcx
	testb	%al, %al
	movq	(%rsp), %rdx
	jne	.LBB29_17
.LBB29_8:
	cmpq	%rdx, %rbp
	je	.LBB29_9
.LBB29_3:
	movq	%rbp, %rax
	incq	%rbp
	cmpb	$10, (%r14,%rax)
	jne	.LBB29_8
	xorl	%r13d, %r13d
	movq	%rbp, %r12
	subq	%rcx, %r12
	cmovaeq	%rcx, %r13
	cmpq	%rax, %rcx
	movq	%rbp, %rcx
	ja	.LBB29_8
	cmpb	$1, 1168(%r15)
	jne	.LBB29_7
	movq	1160(%r15), %rbx
	testq	%rbx, %rbx
	je	.LBB29_7
	.p2align	4
.LBB29_14:
	leaq	.Lstatic.71(%rip), %rsi
	movl	$4, %edx
	movq	%r15, %rdi
	callq	"core::fmt::formatter::Formatter::write_raw::<#bf264aed5fa78656>"
	testb	%al, %al
	jne	.LBB29_17
	decq	%rbx
	jne	.LBB29_14
	jmp	.LBB29_7
.LBB29_1:
	xorl	%eax, %eax
	jmp	.LBB29_18
.LBB29_9:
	xorl	%eax, %eax
	cmpq	%rdx, %rcx
	movq	%rcx, %r12
	cmovaq	%rax, %r12
	subq	%rcx, %rdx
	cmovbq	%rax, %rdx
	jbe	.LBB29_18
	movq	%rdx, %r13
	cmpb	$1, 1168(%r15)
	jne	.LBB29_12
	movq	1160(%r15), %rbx
	testq	%rbx, %rbx
	je	.LBB29_12
	.p2align	4
.LBB29_16:
	leaq	.Lstatic.71(%rip), %rsi
	movl	$4, %edx
	movq	%r15, %rdi
	callq	"core::fmt::formatter::Formatter::write_raw::<#bf264aed5fa78656>"
	testb	%al, %al
	jne	.LBB29_17
	decq	%rbx
	jne	.LBB29_16
.LBB29_12:
	addq	%r12, %r14
	movb	$0, 1168(%r15)
	movq	%r15, %rdi
	movq	%r14, %rsi
	movq	%r13, %rdx
	addq	$8, %rsp
	popq	%rbx
	popq	%r12
	popq	%r13
	popq	%r14
	popq	%r15
	popq	%rbp
	jmp	"core::fmt::formatter::Formatter::write_raw::<#bf264aed5fa78656>"
.LBB29_17:
	movb	$1, %al
.LBB29_18:
	addq	$8, %rsp
	popq	%rbx
	popq	%r12
	popq	%r13
	popq	%r14
	popq	%r15
	popq	%rbp
	retq
.Lfunc_end29:
	.size	"core::fmt::formatter::Formatter::write_indented::<#bf264aed5fa78656>", .Lfunc_end29-"core::fmt::formatter::Formatter::write_indented::<#bf264aed5fa78656>"

	.section	".text.core::fmt::formatter::Formatter::write_raw::<#bf264aed5fa78656>","ax",@progbits
	.p2align	4
	.type	"core::fmt::formatter::Formatter::write_raw::<#bf264aed5fa78656>",@function
"core::fmt::formatter::Formatter::write_raw::<#bf264aed5fa78656>":
	testq	%rdx, %rdx
	je	.LBB30_1
	pushq	%rbp
	pushq	%r15
	pushq	%r14
	pushq	%r12
	pushq	%rbx
	movq	%rdx, %rbx
	movq	%rsi, %r14
	movq	%rdi, %r15
	xorl	%ecx, %ecx
	jmp	.LBB30_4
	.p2align	4
.LBB30_19:
	addq	%rdi, %rcx
	cmpq	%rbx, %rcx
	jae	.LBB30_20
.LBB30_4:
	movzbl	(%r14,%rcx), %edx
	movl	$1, %edi
	testb	%dl, %dl
	jns	.LBB30_19
	leaq	1(%rcx), %rsi
	movb	$1, %al
	cmpq	%rsi, %rbx
	jbe	.LBB30_26
	movzbl	(%r14,%rsi), %esi
	testb	%sil, %sil
	jns	.LBB30_26
	movzbl	%sil, %edi
	cmpb	$-64, %sil
	movl	$192, %esi
	cmovbl	%edi, %esi
	cmpb	$-62, %dl
	jb	.LBB30_26
	movl	%esi, %edi
	andb	$127, %dil
	cmpb	$63, %dil
	ja	.LBB30_26
	movl	$2, %edi
	cmpb	$-32, %dl
	jb	.LBB30_19
	leaq	2(%rcx), %rdi
	cmpq	%rdi, %rbx
	jbe	.LBB30_26
	cmpb	$-65, (%r14,%rdi)
	jg	.LBB30_26
	andl	$127, %esi
	cmpb	$-17, %dl
	ja	.LBB30_16
	movl	%edx, %edi
	shll	$12, %edi
	shll	$6, %esi
	addl	%edi, %esi
	addl	$-917504, %esi
	cmpl	$2048, %esi
	jb	.LBB30_26
	movl	$3, %edi
	cmpl	$55296, %esi
	jb	.LBB30_19
	cmpb	$-18, %dl
	jae	.LBB30_19
	jmp	.LBB30_26
.LBB30_16:
	leaq	3(%rcx), %rdi
	cmpq	%rdi, %rbx
	jbe	.LBB30_26
	cmpb	$-65, (%r14,%rdi)
	jg	.LBB30_26
	shll	$18, %edx
	shll	$12, %esi
	addl	%esi, %edx
	addl	$-62980096, %edx
	movl	$4, %edi
	cmpl	$1048575, %edx
	jbe	.LBB30_19
	jmp	.LBB30_26
.LBB30_1:
	xorl	%eax, %eax
	retq
.LBB30_20:
	movq	1032(%r15), %rcx
	xorl	%r12d, %r12d
	jmp	.LBB30_21
	.p2align	4
.LBB30_24:
	movb	%bpl, 4(%r15,%rcx)
	incq	%rcx
	movq	%rcx, 1032(%r15)
	incq	%r12
	cmpq	%r12, %rbx
	je	.LBB30_25
.LBB30_21:
	movzbl	(%r14,%r12), %ebp
	cmpq	$1024, %rcx
	jb	.LBB30_24
	movq	%r15, %rdi
	callq	"std_io::io::buffer::Buffer::flush"
	movl	%eax, %ecx
	movb	$1, %al
	testb	%cl, %cl
	je	.LBB30_26
	movq	1032(%r15), %rcx
	cmpq	$1023, %rcx
	jbe	.LBB30_24
	jmp	.LBB30_26
.LBB30_25:
	xorl	%eax, %eax
.LBB30_26:
	popq	%rbx
	popq	%r12
	popq	%r14
	popq	%r15
	popq	%rbp
	retq
.Lfunc_end30:
	.size	"core::fmt::formatter::Formatter::write_raw::<#bf264aed5fa78656>", .Lfunc_end30-"core::fmt::formatter::Formatter::write_raw::<#bf264aed5fa78656>"

	.section	".text.core::fmt::formatter::Formatter::cut_and_fill::<#bf264aed5fa78656>","ax",@progbits
	.p2align	4
	.type	"core::fmt::formatter::Formatter::cut_and_fill::<#bf264aed5fa78656>",@function
"core::fmt::formatter::Formatter::cut_and_fill::<#bf264aed5fa78656>":
	pushq	%rbp
	pushq	%r15
	pushq	%r14
	pushq	%r13
	pushq	%r12
	pushq	%rbx
	subq	$24, %rsp
	movq	%rsi, %r14
	movq	%rdi, %rbx
	movq	1152(%rdi), %rax
	movq	%rdx, %r15
	cmpq	%rax, %rdx
	jbe	.LBB31_8
	xorl	%r15d, %r15d
	jmp	.LBB31_3
	.p2align	4
.LBB31_2:
	incq	%r15
	cmpq	%r15, %rdx
	je	.LBB31_6
.LBB31_3:
	cmpb	$-64, (%r14,%r15)
	jl	.LBB31_2
	testq	%rax, %rax
	je	.LBB31_7
	decq	%rax
	jmp	.LBB31_2
.LBB31_6:
	movq	%rdx, %r15
	jmp	.LBB31_9
.LBB31_7:
	movb	$1, %al
	cmpq	%r15, %rdx
	jb	.LBB31_35
.LBB31_8:
	testq	%rdx, %rdx
	je	.LBB31_10
.LBB31_9:
	movb	$1, %al
	cmpb	$-64, (%r14)
	jl	.LBB31_35
.LBB31_10:
	cmpq	%rdx, %r15
	je	.LBB31_12
	movb	$1, %al
	cmpb	$-64, (%r14,%r15)
	jl	.LBB31_35
.LBB31_12:
	movq	1144(%rbx), %r12
	testq	%r15, %r15
	je	.LBB31_17
	testq	%r12, %r12
	je	.LBB31_17
	movl	$1, %eax
	.p2align	4
.LBB31_15:
	xorl	%ecx, %ecx
	cmpb	$-64, -1(%r14,%rax)
	setge	%cl
	subq	%rcx, %r12
	cmpq	%r15, %rax
	jae	.LBB31_17
	incq	%rax
	testq	%r12, %r12
	jne	.LBB31_15
.LBB31_17:
	movzbl	1140(%rbx), %eax
	cmpb	$1, %al
	adcl	$0, %eax
	cmpb	$2, %al
	je	.LBB31_20
	movzbl	%al, %eax
	movq	%r12, %rcx
	cmpl	$1, %eax
	jne	.LBB31_21
	movl	1136(%rbx), %eax
	movl	%eax, 12(%rsp)
	jmp	.LBB31_23
.LBB31_20:
	movq	%r12, %rcx
	shrq	%rcx
.LBB31_21:
	movl	1136(%rbx), %esi
	testq	%rcx, %rcx
	movl	%esi, 12(%rsp)
	je	.LBB31_23
	movq	%rbx, %rdi
	movq	%rcx, 16(%rsp)
	movq	%rcx, %rdx
	callq	"core::fmt::formatter::Formatter::write_char_n_times::<#bf264aed5fa78656>"
	movl	%eax, %ecx
	movb	$1, %al
	testb	%cl, %cl
	jne	.LBB31_35
	jmp	.LBB31_24
.LBB31_23:
	movq	$0, 16(%rsp)
.LBB31_24:
	cmpq	$0, 1160(%rbx)
	jne	.LBB31_31
	testq	%r15, %r15
	je	.LBB31_32
	movq	1032(%rbx), %rcx
	xorl	%ebp, %ebp
	jmp	.LBB31_28
	.p2align	4
.LBB31_27:
	movb	%r13b, 4(%rbx,%rcx)
	incq	%rcx
	movq	%rcx, 1032(%rbx)
	incq	%rbp
	cmpq	%rbp, %r15
	je	.LBB31_32
.LBB31_28:
	movzbl	(%r14,%rbp), %r13d
	cmpq	$1024, %rcx
	jb	.LBB31_27
	movq	%rbx, %rdi
	callq	"std_io::io::buffer::Buffer::flush"
	movl	%eax, %ecx
	movb	$1, %al
	testb	%cl, %cl
	je	.LBB31_35
	movq	1032(%rbx), %rcx
	cmpq	$1023, %rcx
	jbe	.LBB31_27
	jmp	.LBB31_35
.LBB31_31:
	movq	%rbx, %rdi
	movq	%r14, %rsi
	movq	%r15, %rdx
	callq	"core::fmt::formatter::Formatter::write_indented::<#bf264aed5fa78656>"
	movl	%eax, %ecx
	movb	$1, %al
	testb	%cl, %cl
	jne	.LBB31_35
.LBB31_32:
	subq	16(%rsp), %r12
	jbe	.LBB31_34
	movq	%rbx, %rdi
	movl	12(%rsp), %esi
	movq	%r12, %rdx
	addq	$24, %rsp
	popq	%rbx
	popq	%r12
	popq	%r13
	popq	%r14
	popq	%r15
	popq	%rbp
	jmp	"core::fmt::formatter::Formatter::write_char_n_times::<#bf264aed5fa78656>"
.LBB31_34:
	xorl	%eax, %eax
.LBB31_35:
	addq	$24, %rsp
	popq	%rbx
	popq	%r12
	popq	%r13
	popq	%r14
	popq	%r15
	popq	%rbp
	retq
.Lfunc_end31:
	.size	"core::fmt::formatter::Formatter::cut_and_fill::<#bf264aed5fa78656>", .Lfunc_end31-"core::fmt::formatter::Formatter::cut_and_fill::<#bf264aed5fa78656>"

	.section	.rodata.cst16,"aM",@progbits,16
	.p2align	4, 0x0
.LCPI32_0:
	.byte	255
	.byte	63
	.byte	63
	.byte	63
	.zero	1
	.zero	1
	.zero	1
	.zero	1
	.zero	1
	.zero	1
	.zero	1
	.zero	1
	.zero	1
	.zero	1
	.zero	1
	.zero	1
.LCPI32_1:
	.byte	240
	.byte	128
	.byte	128
	.byte	128
	.zero	1
	.zero	1
	.zero	1
	.zero	1
	.zero	1
	.zero	1
	.zero	1
	.zero	1
	.zero	1
	.zero	1
	.zero	1
	.zero	1
.LCPI32_2:
	.zero	16,46
.LCPI32_3:
	.quad	8458358670138239095
	.quad	3327647951695996518
.LCPI32_4:
	.quad	8367798494427701606
	.quad	2334399978102268015
.LCPI32_5:
	.byte	2
	.byte	23
	.byte	28
	.byte	0
	.zero	1
	.zero	1
	.zero	1
	.zero	1
	.zero	1
	.zero	1
	.zero	1
	.zero	1
	.zero	1
	.zero	1
	.zero	1
	.zero	1
.LCPI32_6:
	.byte	0
	.byte	35
	.byte	0
	.byte	0
	.zero	1
	.zero	1
	.zero	1
	.zero	1
	.zero	1
	.zero	1
	.zero	1
	.zero	1
	.zero	1
	.zero	1
	.zero	1
	.zero	1
.LCPI32_7:
	.byte	2
	.byte	23
	.byte	28
	.byte	0
	.byte	0
	.byte	0
	.byte	0
	.byte	0
	.byte	0
	.byte	0
	.byte	0
	.byte	0
	.byte	0
	.byte	0
	.byte	0
	.byte	0
.LCPI32_8:
	.byte	0
	.byte	35
	.byte	0
	.byte	0
	.byte	0
	.byte	0
	.byte	0
	.byte	0
	.byte	0
	.byte	0
	.byte	0
	.byte	0
	.byte	0
	.byte	0
	.byte	0
	.byte	0
	.section	".text.core::fmt::formatter::Formatter::write_char_n_times::<#bf264aed5fa78656>","ax",@progbits
	.p2align	4
	.type	"core::fmt::formatter::Formatter::write_char_n_times::<#bf264aed5fa78656>",@function
"core::fmt::formatter::Formatter::write_char_n_times::<#bf264aed5fa78656>":
	pushq	%rbp
	pushq	%r15
	pushq	%r14
	pushq	%r13
	pushq	%r12
	pushq	%rbx
	subq	$248, %rsp
	movq	%rdx, %r15
	movq	%rdi, %r14
	pxor	%xmm0, %xmm0
	movdqa	%xmm0, 112(%rsp)
	movq	$0, 128(%rsp)
	cmpl	$127, %esi
	ja	.LBB32_25
	movd	%esi, %xmm0
	punpcklbw	%xmm0, %xmm0
	pshuflw	$0, %xmm0, %xmm0
	pshufd	$68, %xmm0, %xmm0
	movdqa	%xmm0, 96(%rsp)
	cmpq	$17, %r15
	jb	.LBB32_19
	leaq	4(%r14), %rax
	movq	%rax, 88(%rsp)
	movq	%r14, 8(%rsp)
.LBB32_3:
	movq	%r15, 80(%rsp)
	cmpq	$0, 1160(%r14)
	jne	.LBB32_17
	movq	1032(%r14), %rax
	leaq	96(%rsp), %r13
	movl	$16, %r12d
	jmp	.LBB32_8
.LBB32_5:
	cmpq	$1024, %r14
	jb	.LBB32_66
.LBB32_6:
	movq	8(%rsp), %r14
	movq	1032(%r14), %rax
	cmpq	$1023, %rax
	movzbl	3(%rsp), %ecx
	ja	.LBB32_61
.LBB32_7:
	incq	%r13
	decq	%r12
	movb	%cl, 4(%r14,%rax)
	incq	%rax
	movq	%rax, 1032(%r14)
	testq	%r12, %r12
	je	.LBB32_18
.LBB32_8:
	movzbl	(%r13), %ecx
	cmpq	$1024, %rax
	jb	.LBB32_7
	movq	$0, 1032(%r14)
	jne	.LBB32_61
	movb	%cl, 3(%rsp)
	movl	(%r14), %ebp
	movl	$1088, %ebx
	xorl	%r14d, %r14d
	jmp	.LBB32_13
	.p2align	4
.LBB32_11:
	callq	rattle_errno@PLT
	cmpl	$4, %eax
	jne	.LBB32_59
	decq	%rbx
	je	.LBB32_5
.LBB32_13:
	cmpq	$1024, %r14
	jae	.LBB32_6
	movq	88(%rsp), %rax
	leaq	(%rax,%r14), %rsi
	movl	$1024, %r15d
	subq	%r14, %r15
	movl	%ebp, %edi
	movq	%r15, %rdx
	callq	write@PLT
	testq	%rax, %rax
	js	.LBB32_11
	je	.LBB32_30
	cmpq	%r15, %rax
	cmovbq	%rax, %r15
	addq	%r15, %r14
	decq	%rbx
	jne	.LBB32_13
	jmp	.LBB32_5
.LBB32_17:
	leaq	96(%rsp), %rsi
	movl	$16, %edx
	movq	%r14, %rdi
	callq	"core::fmt::formatter::Formatter::write_indented::<#bf264aed5fa78656>"
	testb	%al, %al
	jne	.LBB32_61
.LBB32_18:
	movq	80(%rsp), %r15
	addq	$-16, %r15
	cmpq	$16, %r15
	ja	.LBB32_3
.LBB32_19:
	cmpq	$0, 1160(%r14)
	jne	.LBB32_64
	movq	1032(%r14), %rcx
	xorl	%ebx, %ebx
	jmp	.LBB32_22
	.p2align	4
.LBB32_21:
	movb	%bpl, 4(%r14,%rcx)
	incq	%rcx
	movq	%rcx, 1032(%r14)
	incq	%rbx
	cmpq	%rbx, %r15
	je	.LBB32_63
.LBB32_22:
	movzbl	96(%rsp,%rbx), %ebp
	cmpq	$1024, %rcx
	jb	.LBB32_21
	movq	%r14, %rdi
	callq	"std_io::io::buffer::Buffer::flush"
	movl	%eax, %ecx
	movb	$1, %al
	testb	%cl, %cl
	je	.LBB32_62
	movq	1032(%r14), %rcx
	cmpq	$1023, %rcx
	jbe	.LBB32_21
	jmp	.LBB32_62
.LBB32_25:
	movl	$0, 4(%rsp)
	cmpl	$2047, %esi
	ja	.LBB32_27
	movl	%esi, %eax
	shrl	$6, %eax
	orb	$-64, %al
	movb	%al, 4(%rsp)
	andb	$63, %sil
	orb	$-128, %sil
	movb	%sil, 5(%rsp)
	movl	$2, %edx
	jmp	.LBB32_34
.LBB32_27:
	cmpl	$55296, %esi
	setb	%al
	leal	-57344(%rsi), %ecx
	cmpl	$1056768, %ecx
	setb	%cl
	orb	%al, %cl
	je	.LBB32_31
	movl	%esi, %eax
	cmpl	$65535, %esi
	ja	.LBB32_33
	shrl	$12, %eax
	orb	$-32, %al
	movb	%al, 4(%rsp)
	movl	%esi, %eax
	shrl	$6, %eax
	andb	$63, %al
	orb	$-128, %al
	movb	%al, 5(%rsp)
	andb	$63, %sil
	orb	$-128, %sil
	movb	%sil, 6(%rsp)
	movl	$3, %edx
	jmp	.LBB32_34
.LBB32_31:
	movw	$-16401, 4(%rsp)
	movb	$-67, 6(%rsp)
	movl	$3, %edx
	jmp	.LBB32_34
.LBB32_33:
	shrl	$18, %eax
	movl	%esi, %ecx
	shrl	$4, %ecx
	andl	$65280, %ecx
	orl	%eax, %ecx
	movl	%esi, %eax
	shll	$10, %eax
	andl	$16711680, %eax
	orl	%ecx, %eax
	shll	$24, %esi
	orl	%eax, %esi
	movd	%esi, %xmm0
	pand	.LCPI32_0(%rip), %xmm0
	por	.LCPI32_1(%rip), %xmm0
	movd	%xmm0, 4(%rsp)
	movl	$4, %edx
.LBB32_34:
	leaq	112(%rsp), %rdi
	leaq	4(%rsp), %rsi
	callq	"core::str::utf8::from_utf8"
	cmpb	$0, 112(%rsp)
	jne	.LBB32_61
	movq	120(%rsp), %rax
	movq	%rax, 72(%rsp)
	movq	128(%rsp), %r12
	testq	%r12, %r12
	je	.LBB32_53
	leaq	4(%r14), %rax
	movq	%rax, 88(%rsp)
	xorl	%ecx, %ecx
	movq	%r14, 8(%rsp)
	movq	%r15, 80(%rsp)
	movq	%r12, 144(%rsp)
.LBB32_37:
	movq	%rcx, 152(%rsp)
	cmpq	$0, 1160(%r14)
	jne	.LBB32_51
	movq	1032(%r14), %rax
	movq	72(%rsp), %r15
	jmp	.LBB32_42
.LBB32_39:
	cmpq	$1024, %r14
	jb	.LBB32_66
.LBB32_40:
	movq	8(%rsp), %r14
	movq	1032(%r14), %rax
	cmpq	$1023, %rax
	movzbl	3(%rsp), %ecx
	ja	.LBB32_61
.LBB32_41:
	incq	%r15
	decq	%r12
	movb	%cl, 4(%r14,%rax)
	incq	%rax
	movq	%rax, 1032(%r14)
	testq	%r12, %r12
	je	.LBB32_52
.LBB32_42:
	movzbl	(%r15), %ecx
	cmpq	$1024, %rax
	jb	.LBB32_41
	movq	$0, 1032(%r14)
	jne	.LBB32_61
	movb	%cl, 3(%rsp)
	movl	(%r14), %ebp
	movl	$1088, %ebx
	xorl	%r14d, %r14d
	jmp	.LBB32_47
	.p2align	4
.LBB32_45:
	callq	rattle_errno@PLT
	cmpl	$4, %eax
	jne	.LBB32_59
	decq	%rbx
	je	.LBB32_39
.LBB32_47:
	cmpq	$1024, %r14
	jae	.LBB32_40
	movq	88(%rsp), %rax
	leaq	(%rax,%r14), %rsi
	movl	$1024, %r13d
	subq	%r14, %r13
	movl	%ebp, %edi
	movq	%r13, %rdx
	callq	write@PLT
	testq	%rax, %rax
	js	.LBB32_45
	je	.LBB32_30
	cmpq	%r13, %rax
	cmovbq	%rax, %r13
	addq	%r13, %r14
	decq	%rbx
	jne	.LBB32_47
	jmp	.LBB32_39
.LBB32_51:
	movq	%r14, %rdi
	movq	72(%rsp), %rsi
	movq	%r12, %rdx
	callq	"core::fmt::formatter::Formatter::write_indented::<#bf264aed5fa78656>"
	testb	%al, %al
	jne	.LBB32_61
.LBB32_52:
	movq	152(%rsp), %rcx
	incq	%rcx
	xorl	%eax, %eax
	movq	80(%rsp), %r15
	cmpq	%r15, %rcx
	movq	144(%rsp), %r12
	jne	.LBB32_37
	jmp	.LBB32_62
.LBB32_30:
	movaps	.LCPI32_2(%rip), %xmm0
	movaps	%xmm0, 48(%rsp)
	movaps	%xmm0, 32(%rsp)
	movaps	%xmm0, 16(%rsp)
	movaps	.LCPI32_3(%rip), %xmm2
	movaps	.LCPI32_4(%rip), %xmm0
	movss	.LCPI32_7(%rip), %xmm1
	xorl	%eax, %eax
	jmp	.LBB32_60
.LBB32_59:
	leaq	160(%rsp), %rdi
	movl	%eax, %esi
	callq	"std_io::io::error::Error::from_raw_os_error"
	movsd	160(%rsp), %xmm1
	movl	164(%rsp), %eax
	movups	168(%rsp), %xmm0
	movups	184(%rsp), %xmm2
	movups	200(%rsp), %xmm3
	movaps	%xmm3, 16(%rsp)
	movups	216(%rsp), %xmm3
	movaps	%xmm3, 32(%rsp)
	movups	232(%rsp), %xmm3
	movaps	%xmm3, 48(%rsp)
.LBB32_60:
	movq	8(%rsp), %rcx
	movq	$1, 1040(%rcx)
	movss	%xmm1, 1048(%rcx)
	movl	%eax, 1052(%rcx)
	movdqu	%xmm0, 1056(%rcx)
	movups	%xmm2, 1072(%rcx)
	movdqa	16(%rsp), %xmm0
	movaps	32(%rsp), %xmm1
	movaps	48(%rsp), %xmm2
	movdqu	%xmm0, 1088(%rcx)
	movups	%xmm1, 1104(%rcx)
	movups	%xmm2, 1120(%rcx)
.LBB32_61:
	movb	$1, %al
	jmp	.LBB32_62
.LBB32_53:
	cmpq	$0, 1160(%r14)
	je	.LBB32_63
	decq	%r15
	movl	$1, %eax
	testq	%rax, %rax
	je	.LBB32_55
	jmp	.LBB32_57
	.p2align	4
.LBB32_56:
	movq	1160(%r14), %rax
	testq	%rax, %rax
	je	.LBB32_55
.LBB32_57:
	movq	%r14, %rdi
	movq	72(%rsp), %rsi
	xorl	%edx, %edx
	callq	"core::fmt::formatter::Formatter::write_indented::<#bf264aed5fa78656>"
	movl	%eax, %ecx
	movb	$1, %al
	testb	%cl, %cl
	jne	.LBB32_62
	.p2align	4
.LBB32_55:
	subq	$1, %r15
	jae	.LBB32_56
.LBB32_63:
	xorl	%eax, %eax
.LBB32_62:
	addq	$248, %rsp
	popq	%rbx
	popq	%r12
	popq	%r13
	popq	%r14
	popq	%r15
	popq	%rbp
	retq
.LBB32_64:
	leaq	96(%rsp), %rsi
	movq	%r14, %rdi
	movq	%r15, %rdx
	callq	"core::fmt::formatter::Formatter::write_indented::<#bf264aed5fa78656>"
	jmp	.LBB32_62
.LBB32_66:
	pxor	%xmm0, %xmm0
	movdqa	%xmm0, 48(%rsp)
	movdqa	%xmm0, 32(%rsp)
	movdqa	%xmm0, 16(%rsp)
	movss	.LCPI32_8(%rip), %xmm1
	movl	$4, %eax
	xorps	%xmm2, %xmm2
	jmp	.LBB32_60
.Lfunc_end32:
	.size	"core::fmt::formatter::Formatter::write_char_n_times::<#bf264aed5fa78656>", .Lfunc_end32-"core::fmt::formatter::Formatter::write_char_n_times::<#bf264aed5fa78656>"

	.section	".text.std_io::io::kind::ErrorKindDisplay::fmt::<#bf264aed5fa78656>","ax",@progbits
	.p2align	4
	.type	"std_io::io::kind::ErrorKindDisplay::fmt::<#bf264aed5fa78656>",@function
"std_io::io::kind::ErrorKindDisplay::fmt::<#bf264aed5fa78656>":
	pushq	%rbp
	pushq	%r14
	pushq	%rbx
	movq	%rsi, %rbx
	movq	1160(%rsi), %rax
	movzbl	%dil, %ecx
	leaq	.LJTI33_0(%rip), %rdx
	movslq	(%rdx,%rcx,4), %rcx
	addq	%rdx, %rcx
	jmpq	*%rcx
.LBB33_1:
	testq	%rax, %rax
	jne	.LBB33_1662
	movq	1032(%rbx), %rdx
	cmpq	$1024, %rdx
	jb	.LBB33_1597
	movq	%rbx, %rdi
	callq	"std_io::io::buffer::Buffer::flush"
	movb	$1, %cl
	testb	%al, %al
	je	.LBB33_5
	movq	1032(%rbx), %rdx
	cmpq	$1023, %rdx
	ja	.LBB33_5
.LBB33_1597:
	movb	$101, 4(%rbx,%rdx)
	leaq	1(%rdx), %rax
	movq	%rax, 1032(%rbx)
	cmpq	$1023, %rdx
	jne	.LBB33_1600
	movq	%rbx, %rdi
	callq	"std_io::io::buffer::Buffer::flush"
	movb	$1, %cl
	testb	%al, %al
	je	.LBB33_5
	movq	1032(%rbx), %rax
	cmpq	$1023, %rax
	ja	.LBB33_5
.LBB33_1600:
	movb	$110, 4(%rbx,%rax)
	leaq	1(%rax), %rdx
	movq	%rdx, 1032(%rbx)
	cmpq	$1023, %rax
	jb	.LBB33_1603
	movq	%rbx, %rdi
	callq	"std_io::io::buffer::Buffer::flush"
	movb	$1, %cl
	testb	%al, %al
	je	.LBB33_5
	movq	1032(%rbx), %rdx
	cmpq	$1023, %rdx
	ja	.LBB33_5
.LBB33_1603:
	movb	$116, 4(%rbx,%rdx)
	leaq	1(%rdx), %rax
	movq	%rax, 1032(%rbx)
	cmpq	$1023, %rdx
	jb	.LBB33_1606
	movq	%rbx, %rdi
	callq	"std_io::io::buffer::Buffer::flush"
	movb	$1, %cl
	testb	%al, %al
	je	.LBB33_5
	movq	1032(%rbx), %rax
	cmpq	$1023, %rax
	ja	.LBB33_5
.LBB33_1606:
	movb	$105, 4(%rbx,%rax)
	leaq	1(%rax), %rdx
	movq	%rdx, 1032(%rbx)
	cmpq	$1023, %rax
	jb	.LBB33_1609
	movq	%rbx, %rdi
	callq	"std_io::io::buffer::Buffer::flush"
	movb	$1, %cl
	testb	%al, %al
	je	.LBB33_5
	movq	1032(%rbx), %rdx
	cmpq	$1023, %rdx
	ja	.LBB33_5
.LBB33_1609:
	movb	$116, 4(%rbx,%rdx)
	leaq	1(%rdx), %rax
	movq	%rax, 1032(%rbx)
	cmpq	$1023, %rdx
	jb	.LBB33_1612
	movq	%rbx, %rdi
	callq	"std_io::io::buffer::Buffer::flush"
	movb	$1, %cl
	testb	%al, %al
	je	.LBB33_5
	movq	1032(%rbx), %rax
	cmpq	$1023, %rax
	ja	.LBB33_5
.LBB33_1612:
	movb	$121, 4(%rbx,%rax)
	leaq	1(%rax), %rdx
	movq	%rdx, 1032(%rbx)
	cmpq	$1023, %rax
	jb	.LBB33_1615
	movq	%rbx, %rdi
	callq	"std_io::io::buffer::Buffer::flush"
	movb	$1, %cl
	testb	%al, %al
	je	.LBB33_5
	movq	1032(%rbx), %rdx
	cmpq	$1023, %rdx
	ja	.LBB33_5
.LBB33_1615:
	movb	$32, 4(%rbx,%rdx)
	leaq	1(%rdx), %rax
	movq	%rax, 1032(%rbx)
	cmpq	$1023, %rdx
	jb	.LBB33_1618
	movq	%rbx, %rdi
	callq	"std_io::io::buffer::Buffer::flush"
	movb	$1, %cl
	testb	%al, %al
	je	.LBB33_5
	movq	1032(%rbx), %rax
	cmpq	$1023, %rax
	ja	.LBB33_5
.LBB33_1618:
	movb	$110, 4(%rbx,%rax)
	leaq	1(%rax), %rdx
	movq	%rdx, 1032(%rbx)
	cmpq	$1023, %rax
	jb	.LBB33_1621
	movq	%rbx, %rdi
	callq	"std_io::io::buffer::Buffer::flush"
	movb	$1, %cl
	testb	%al, %al
	je	.LBB33_5
	movq	1032(%rbx), %rdx
	cmpq	$1023, %rdx
	ja	.LBB33_5
.LBB33_1621:
	movb	$111, 4(%rbx,%rdx)
	leaq	1(%rdx), %rax
	movq	%rax, 1032(%rbx)
	cmpq	$1023, %rdx
	jb	.LBB33_1624
	movq	%rbx, %rdi
	callq	"std_io::io::buffer::Buffer::flush"
	movb	$1, %cl
	testb	%al, %al
	je	.LBB33_5
	movq	1032(%rbx), %rax
	cmpq	$1023, %rax
	ja	.LBB33_5
.LBB33_1624:
	movb	$116, 4(%rbx,%rax)
	leaq	1(%rax), %rdx
	movq	%rdx, 1032(%rbx)
	cmpq	$1023, %rax
	jb	.LBB33_1627
	movq	%rbx, %rdi
	callq	"std_io::io::buffer::Buffer::flush"
	movb	$1, %cl
	testb	%al, %al
	je	.LBB33_5
	movq	1032(%rbx), %rdx
	cmpq	$1023, %rdx
	ja	.LBB33_5
.LBB33_1627:
	movb	$32, 4(%rbx,%rdx)
	leaq	1(%rdx), %rax
	movq	%rax, 1032(%rbx)
	cmpq	$1023, %rdx
	jb	.LBB33_1630
	movq	%rbx, %rdi
	callq	"std_io::io::buffer::Buffer::flush"
	movb	$1, %cl
	testb	%al, %al
	je	.LBB33_5
	movq	1032(%rbx), %rax
	cmpq	$1023, %rax
	ja	.LBB33_5
.LBB33_1630:
	movb	$102, 4(%rbx,%rax)
	leaq	1(%rax), %rdx
	movq	%rdx, 1032(%rbx)
	cmpq	$1023, %rax
	jb	.LBB33_1633
	movq	%rbx, %rdi
	callq	"std_io::io::buffer::Buffer::flush"
	movb	$1, %cl
	testb	%al, %al
	je	.LBB33_5
	movq	1032(%rbx), %rdx
	cmpq	$1023, %rdx
	ja	.LBB33_5
.LBB33_1633:
	movb	$111, 4(%rbx,%rdx)
	leaq	1(%rdx), %rax
	movq	%rax, 1032(%rbx)
	cmpq	$1023, %rdx
	jb	.LBB33_1636
	movq	%rbx, %rdi
	callq	"std_io::io::buffer::Buffer::flush"
	movb	$1, %cl
	testb	%al, %al
	je	.LBB33_5
	movq	1032(%rbx), %rax
	cmpq	$1023, %rax
	ja	.LBB33_5
.LBB33_1636:
	movb	$117, 4(%rbx,%rax)
	leaq	1(%rax), %rdx
	movq	%rdx, 1032(%rbx)
	cmpq	$1023, %rax
	jb	.LBB33_1639
	movq	%rbx, %rdi
	callq	"std_io::io::buffer::Buffer::flush"
	movb	$1, %cl
	testb	%al, %al
	je	.LBB33_5
	movq	1032(%rbx), %rdx
	cmpq	$1023, %rdx
	ja	.LBB33_5
.LBB33_1639:
	movb	$110, 4(%rbx,%rdx)
	leaq	1(%rdx), %rax
	movq	%rax, 1032(%rbx)
	cmpq	$1023, %rdx
	jb	.LBB33_1596
	jmp	.LBB33_1640
.LBB33_6:
	testq	%rax, %rax
	jne	.LBB33_1643
	movq	1032(%rbx), %rax
	xorl	%r14d, %r14d
	jmp	.LBB33_9
	.p2align	4
.LBB33_8:
	movb	%bpl, 4(%rbx,%rax)
	incq	%rax
	movq	%rax, 1032(%rbx)
	incq	%r14
	xorl	%ecx, %ecx
	cmpq	$22, %r14
	je	.LBB33_5
.LBB33_9:
	leaq	.Lstatic.155(%rip), %rcx
	movzbl	(%r14,%rcx), %ebp
	cmpq	$1024, %rax
	jb	.LBB33_8
	movq	%rbx, %rdi
	callq	"std_io::io::buffer::Buffer::flush"
	movb	$1, %cl
	testb	%al, %al
	je	.LBB33_5
	movq	1032(%rbx), %rax
	cmpq	$1023, %rax
	jbe	.LBB33_8
	jmp	.LBB33_5
.LBB33_12:
	testq	%rax, %rax
	jne	.LBB33_1644
	movq	1032(%rbx), %rdx
	cmpq	$1024, %rdx
	jb	.LBB33_16
	movq	%rbx, %rdi
	callq	"std_io::io::buffer::Buffer::flush"
	testb	%al, %al
	je	.LBB33_110
	movq	1032(%rbx), %rdx
	movb	$1, %cl
	cmpq	$1023, %rdx
	ja	.LBB33_5
.LBB33_16:
	movb	$111, 4(%rbx,%rdx)
	leaq	1(%rdx), %rax
	movq	%rax, 1032(%rbx)
	cmpq	$1023, %rdx
	jne	.LBB33_19
	movq	%rbx, %rdi
	callq	"std_io::io::buffer::Buffer::flush"
	testb	%al, %al
	je	.LBB33_110
	movq	1032(%rbx), %rax
	movb	$1, %cl
	cmpq	$1023, %rax
	ja	.LBB33_5
.LBB33_19:
	movb	$112, 4(%rbx,%rax)
	leaq	1(%rax), %rdx
	movq	%rdx, 1032(%rbx)
	cmpq	$1023, %rax
	jb	.LBB33_22
	movq	%rbx, %rdi
	callq	"std_io::io::buffer::Buffer::flush"
	testb	%al, %al
	je	.LBB33_110
	movq	1032(%rbx), %rdx
	movb	$1, %cl
	cmpq	$1023, %rdx
	ja	.LBB33_5
.LBB33_22:
	movb	$101, 4(%rbx,%rdx)
	leaq	1(%rdx), %rax
	movq	%rax, 1032(%rbx)
	cmpq	$1023, %rdx
	jb	.LBB33_25
	movq	%rbx, %rdi
	callq	"std_io::io::buffer::Buffer::flush"
	testb	%al, %al
	je	.LBB33_110
	movq	1032(%rbx), %rax
	movb	$1, %cl
	cmpq	$1023, %rax
	ja	.LBB33_5
.LBB33_25:
	movb	$114, 4(%rbx,%rax)
	leaq	1(%rax), %rdx
	movq	%rdx, 1032(%rbx)
	cmpq	$1023, %rax
	jb	.LBB33_28
	movq	%rbx, %rdi
	callq	"std_io::io::buffer::Buffer::flush"
	testb	%al, %al
	je	.LBB33_110
	movq	1032(%rbx), %rdx
	movb	$1, %cl
	cmpq	$1023, %rdx
	ja	.LBB33_5
.LBB33_28:
	movb	$97, 4(%rbx,%rdx)
	leaq	1(%rdx), %rax
	movq	%rax, 1032(%rbx)
	cmpq	$1023, %rdx
	jb	.LBB33_31
	movq	%rbx, %rdi
	callq	"std_io::io::buffer::Buffer::flush"
	testb	%al, %al
	je	.LBB33_110
	movq	1032(%rbx), %rax
	movb	$1, %cl
	cmpq	$1023, %rax
	ja	.LBB33_5
.LBB33_31:
	movb	$116, 4(%rbx,%rax)
	leaq	1(%rax), %rdx
	movq	%rdx, 1032(%rbx)
	cmpq	$1023, %rax
	jb	.LBB33_34
	movq	%rbx, %rdi
	callq	"std_io::io::buffer::Buffer::flush"
	testb	%al, %al
	je	.LBB33_110
	movq	1032(%rbx), %rdx
	movb	$1, %cl
	cmpq	$1023, %rdx
	ja	.LBB33_5
.LBB33_34:
	movb	$105, 4(%rbx,%rdx)
	leaq	1(%rdx), %rax
	movq	%rax, 1032(%rbx)
	cmpq	$1023, %rdx
	jb	.LBB33_37
	movq	%rbx, %rdi
	callq	"std_io::io::buffer::Buffer::flush"
	testb	%al, %al
	je	.LBB33_110
	movq	1032(%rbx), %rax
	movb	$1, %cl
	cmpq	$1023, %rax
	ja	.LBB33_5
.LBB33_37:
	movb	$111, 4(%rbx,%rax)
	leaq	1(%rax), %rdx
	movq	%rdx, 1032(%rbx)
	cmpq	$1023, %rax
	jb	.LBB33_40
	movq	%rbx, %rdi
	callq	"std_io::io::buffer::Buffer::flush"
	testb	%al, %al
	je	.LBB33_110
	movq	1032(%rbx), %rdx
	movb	$1, %cl
	cmpq	$1023, %rdx
	ja	.LBB33_5
.LBB33_40:
	movb	$110, 4(%rbx,%rdx)
	leaq	1(%rdx), %rax
	movq	%rax, 1032(%rbx)
	cmpq	$1023, %rdx
	jb	.LBB33_43
	movq	%rbx, %rdi
	callq	"std_io::io::buffer::Buffer::flush"
	testb	%al, %al
	je	.LBB33_110
	movq	1032(%rbx), %rax
	movb	$1, %cl
	cmpq	$1023, %rax
	ja	.LBB33_5
.LBB33_43:
	movb	$32, 4(%rbx,%rax)
	leaq	1(%rax), %rdx
	movq	%rdx, 1032(%rbx)
	cmpq	$1023, %rax
	jb	.LBB33_46
	movq	%rbx, %rdi
	callq	"std_io::io::buffer::Buffer::flush"
	testb	%al, %al
	je	.LBB33_110
	movq	1032(%rbx), %rdx
	movb	$1, %cl
	cmpq	$1023, %rdx
	ja	.LBB33_5
.LBB33_46:
	movb	$105, 4(%rbx,%rdx)
	leaq	1(%rdx), %rax
	movq	%rax, 1032(%rbx)
	cmpq	$1023, %rdx
	jb	.LBB33_49
	movq	%rbx, %rdi
	callq	"std_io::io::buffer::Buffer::flush"
	testb	%al, %al
	je	.LBB33_110
	movq	1032(%rbx), %rax
	movb	$1, %cl
	cmpq	$1023, %rax
	ja	.LBB33_5
.LBB33_49:
	movb	$110, 4(%rbx,%rax)
	leaq	1(%rax), %rdx
	movq	%rdx, 1032(%rbx)
	cmpq	$1023, %rax
	jb	.LBB33_52
	movq	%rbx, %rdi
	callq	"std_io::io::buffer::Buffer::flush"
	testb	%al, %al
	je	.LBB33_110
	movq	1032(%rbx), %rdx
	movb	$1, %cl
	cmpq	$1023, %rdx
	ja	.LBB33_5
.LBB33_52:
	movb	$116, 4(%rbx,%rdx)
	leaq	1(%rdx), %rax
	movq	%rax, 1032(%rbx)
	cmpq	$1023, %rdx
	jb	.LBB33_55
	movq	%rbx, %rdi
	callq	"std_io::io::buffer::Buffer::flush"
	testb	%al, %al
	je	.LBB33_110
	movq	1032(%rbx), %rax
	movb	$1, %cl
	cmpq	$1023, %rax
	ja	.LBB33_5
.LBB33_55:
	movb	$101, 4(%rbx,%rax)
	leaq	1(%rax), %rdx
	movq	%rdx, 1032(%rbx)
	cmpq	$1023, %rax
	jb	.LBB33_58
	movq	%rbx, %rdi
	callq	"std_io::io::buffer::Buffer::flush"
	testb	%al, %al
	je	.LBB33_110
	movq	1032(%rbx), %rdx
	movb	$1, %cl
	cmpq	$1023, %rdx
	ja	.LBB33_5
.LBB33_58:
	movb	$114, 4(%rbx,%rdx)
	leaq	1(%rdx), %rax
	movq	%rax, 1032(%rbx)
	cmpq	$1023, %rdx
	jb	.LBB33_61
	movq	%rbx, %rdi
	callq	"std_io::io::buffer::Buffer::flush"
	testb	%al, %al
	je	.LBB33_110
	movq	1032(%rbx), %rax
	movb	$1, %cl
	cmpq	$1023, %rax
	ja	.LBB33_5
.LBB33_61:
	movb	$114, 4(%rbx,%rax)
	leaq	1(%rax), %rdx
	movq	%rdx, 1032(%rbx)
	cmpq	$1023, %rax
	jb	.LBB33_64
	movq	%rbx, %rdi
	callq	"std_io::io::buffer::Buffer::flush"
	testb	%al, %al
	je	.LBB33_110
	movq	1032(%rbx), %rdx
	movb	$1, %cl
	cmpq	$1023, %rdx
	ja	.LBB33_5
.LBB33_64:
	movb	$117, 4(%rbx,%rdx)
	leaq	1(%rdx), %rax
	movq	%rax, 1032(%rbx)
	cmpq	$1023, %rdx
	jb	.LBB33_67
	movq	%rbx, %rdi
	callq	"std_io::io::buffer::Buffer::flush"
	testb	%al, %al
	je	.LBB33_110
	movq	1032(%rbx), %rax
	movb	$1, %cl
	cmpq	$1023, %rax
	ja	.LBB33_5
.LBB33_67:
	movb	$112, 4(%rbx,%rax)
	leaq	1(%rax), %rdx
	movq	%rdx, 1032(%rbx)
	cmpq	$1023, %rax
	jb	.LBB33_70
	movq	%rbx, %rdi
	callq	"std_io::io::buffer::Buffer::flush"
	testb	%al, %al
	je	.LBB33_110
	movq	1032(%rbx), %rdx
	movb	$1, %cl
	cmpq	$1023, %rdx
	ja	.LBB33_5
.LBB33_70:
	movb	$116, 4(%rbx,%rdx)
	leaq	1(%rdx), %rax
	movq	%rax, 1032(%rbx)
	cmpq	$1023, %rdx
	jb	.LBB33_73
	movq	%rbx, %rdi
	callq	"std_io::io::buffer::Buffer::flush"
	testb	%al, %al
	je	.LBB33_110
	movq	1032(%rbx), %rax
	movb	$1, %cl
	cmpq	$1023, %rax
	ja	.LBB33_5
.LBB33_73:
	movb	$101, 4(%rbx,%rax)
	leaq	1(%rax), %rdx
	movq	%rdx, 1032(%rbx)
	cmpq	$1023, %rax
	jb	.LBB33_76
	movq	%rbx, %rdi
	callq	"std_io::io::buffer::Buffer::flush"
	testb	%al, %al
	je	.LBB33_110
	jmp	.LBB33_75
.LBB33_77:
	testq	%rax, %rax
	jne	.LBB33_1645
	movq	1032(%rbx), %rdx
	cmpq	$1024, %rdx
	jb	.LBB33_81
	movq	%rbx, %rdi
	callq	"std_io::io::buffer::Buffer::flush"
	testb	%al, %al
	je	.LBB33_110
	movq	1032(%rbx), %rdx
	movb	$1, %cl
	cmpq	$1023, %rdx
	ja	.LBB33_5
.LBB33_81:
	movb	$117, 4(%rbx,%rdx)
	leaq	1(%rdx), %rax
	movq	%rax, 1032(%rbx)
	cmpq	$1023, %rdx
	jne	.LBB33_84
	movq	%rbx, %rdi
	callq	"std_io::io::buffer::Buffer::flush"
	testb	%al, %al
	je	.LBB33_110
	movq	1032(%rbx), %rax
	movb	$1, %cl
	cmpq	$1023, %rax
	ja	.LBB33_5
.LBB33_84:
	movb	$110, 4(%rbx,%rax)
	leaq	1(%rax), %rdx
	movq	%rdx, 1032(%rbx)
	cmpq	$1023, %rax
	jb	.LBB33_87
	movq	%rbx, %rdi
	callq	"std_io::io::buffer::Buffer::flush"
	testb	%al, %al
	je	.LBB33_110
	movq	1032(%rbx), %rdx
	movb	$1, %cl
	cmpq	$1023, %rdx
	ja	.LBB33_5
.LBB33_87:
	movb	$115, 4(%rbx,%rdx)
	leaq	1(%rdx), %rax
	movq	%rax, 1032(%rbx)
	cmpq	$1023, %rdx
	jb	.LBB33_90
	movq	%rbx, %rdi
	callq	"std_io::io::buffer::Buffer::flush"
	testb	%al, %al
	je	.LBB33_110
	movq	1032(%rbx), %rax
	movb	$1, %cl
	cmpq	$1023, %rax
	ja	.LBB33_5
.LBB33_90:
	movb	$117, 4(%rbx,%rax)
	leaq	1(%rax), %rdx
	movq	%rdx, 1032(%rbx)
	cmpq	$1023, %rax
	jb	.LBB33_93
	movq	%rbx, %rdi
	callq	"std_io::io::buffer::Buffer::flush"
	testb	%al, %al
	je	.LBB33_110
	movq	1032(%rbx), %rdx
	movb	$1, %cl
	cmpq	$1023, %rdx
	ja	.LBB33_5
.LBB33_93:
	movb	$112, 4(%rbx,%rdx)
	leaq	1(%rdx), %rax
	movq	%rax, 1032(%rbx)
	cmpq	$1023, %rdx
	jb	.LBB33_96
	movq	%rbx, %rdi
	callq	"std_io::io::buffer::Buffer::flush"
	testb	%al, %al
	je	.LBB33_110
	movq	1032(%rbx), %rax
	movb	$1, %cl
	cmpq	$1023, %rax
	ja	.LBB33_5
.LBB33_96:
	movb	$112, 4(%rbx,%rax)
	leaq	1(%rax), %rdx
	movq	%rdx, 1032(%rbx)
	cmpq	$1023, %rax
	jb	.LBB33_99
	movq	%rbx, %rdi
	callq	"std_io::io::buffer::Buffer::flush"
	testb	%al, %al
	je	.LBB33_110
	movq	1032(%rbx), %rdx
	movb	$1, %cl
	cmpq	$1023, %rdx
	ja	.LBB33_5
.LBB33_99:
	movb	$111, 4(%rbx,%rdx)
	leaq	1(%rdx), %rax
	movq	%rax, 1032(%rbx)
	cmpq	$1023, %rdx
	jb	.LBB33_102
	movq	%rbx, %rdi
	callq	"std_io::io::buffer::Buffer::flush"
	testb	%al, %al
	je	.LBB33_110
	movq	1032(%rbx), %rax
	movb	$1, %cl
	cmpq	$1023, %rax
	ja	.LBB33_5
.LBB33_102:
	movb	$114, 4(%rbx,%rax)
	leaq	1(%rax), %rdx
	movq	%rdx, 1032(%rbx)
	cmpq	$1023, %rax
	jb	.LBB33_105
	movq	%rbx, %rdi
	callq	"std_io::io::buffer::Buffer::flush"
	testb	%al, %al
	je	.LBB33_110
	movq	1032(%rbx), %rdx
	movb	$1, %cl
	cmpq	$1023, %rdx
	ja	.LBB33_5
.LBB33_105:
	movb	$116, 4(%rbx,%rdx)
	leaq	1(%rdx), %rax
	movq	%rax, 1032(%rbx)
	cmpq	$1023, %rdx
	jb	.LBB33_108
	movq	%rbx, %rdi
	callq	"std_io::io::buffer::Buffer::flush"
	testb	%al, %al
	je	.LBB33_110
	movq	1032(%rbx), %rax
	movb	$1, %cl
	cmpq	$1023, %rax
	ja	.LBB33_5
.LBB33_108:
	movb	$101, 4(%rbx,%rax)
	leaq	1(%rax), %rdx
	movq	%rdx, 1032(%rbx)
	cmpq	$1023, %rax
	jb	.LBB33_76
	movq	%rbx, %rdi
	callq	"std_io::io::buffer::Buffer::flush"
	testb	%al, %al
	je	.LBB33_110
.LBB33_75:
	movq	1032(%rbx), %rdx
	movb	$1, %cl
	cmpq	$1023, %rdx
	ja	.LBB33_5
.LBB33_76:
	movb	$100, 4(%rbx,%rdx)
	jmp	.LBB33_1552
.LBB33_111:
	testq	%rax, %rax
	jne	.LBB33_1646
	movq	1032(%rbx), %rdx
	cmpq	$1024, %rdx
	jb	.LBB33_115
	movq	%rbx, %rdi
	callq	"std_io::io::buffer::Buffer::flush"
	testb	%al, %al
	je	.LBB33_153
	movq	1032(%rbx), %rdx
	movb	$1, %cl
	cmpq	$1023, %rdx
	ja	.LBB33_5
.LBB33_115:
	movb	$102, 4(%rbx,%rdx)
	leaq	1(%rdx), %rax
	movq	%rax, 1032(%rbx)
	cmpq	$1023, %rdx
	jne	.LBB33_118
	movq	%rbx, %rdi
	callq	"std_io::io::buffer::Buffer::flush"
	testb	%al, %al
	je	.LBB33_153
	movq	1032(%rbx), %rax
	movb	$1, %cl
	cmpq	$1023, %rax
	ja	.LBB33_5
.LBB33_118:
	movb	$105, 4(%rbx,%rax)
	leaq	1(%rax), %rdx
	movq	%rdx, 1032(%rbx)
	cmpq	$1023, %rax
	jb	.LBB33_121
	movq	%rbx, %rdi
	callq	"std_io::io::buffer::Buffer::flush"
	testb	%al, %al
	je	.LBB33_153
	movq	1032(%rbx), %rdx
	movb	$1, %cl
	cmpq	$1023, %rdx
	ja	.LBB33_5
.LBB33_121:
	movb	$108, 4(%rbx,%rdx)
	leaq	1(%rdx), %rax
	movq	%rax, 1032(%rbx)
	cmpq	$1023, %rdx
	jb	.LBB33_124
	movq	%rbx, %rdi
	callq	"std_io::io::buffer::Buffer::flush"
	testb	%al, %al
	je	.LBB33_153
	movq	1032(%rbx), %rax
	movb	$1, %cl
	cmpq	$1023, %rax
	ja	.LBB33_5
.LBB33_124:
	movb	$101, 4(%rbx,%rax)
	leaq	1(%rax), %rdx
	movq	%rdx, 1032(%rbx)
	cmpq	$1023, %rax
	jb	.LBB33_127
	movq	%rbx, %rdi
	callq	"std_io::io::buffer::Buffer::flush"
	testb	%al, %al
	je	.LBB33_153
	movq	1032(%rbx), %rdx
	movb	$1, %cl
	cmpq	$1023, %rdx
	ja	.LBB33_5
.LBB33_127:
	movb	$32, 4(%rbx,%rdx)
	leaq	1(%rdx), %rax
	movq	%rax, 1032(%rbx)
	cmpq	$1023, %rdx
	jb	.LBB33_130
	movq	%rbx, %rdi
	callq	"std_io::io::buffer::Buffer::flush"
	testb	%al, %al
	je	.LBB33_153
	movq	1032(%rbx), %rax
	movb	$1, %cl
	cmpq	$1023, %rax
	ja	.LBB33_5
.LBB33_130:
	movb	$116, 4(%rbx,%rax)
	leaq	1(%rax), %rdx
	movq	%rdx, 1032(%rbx)
	cmpq	$1023, %rax
	jb	.LBB33_133
	movq	%rbx, %rdi
	callq	"std_io::io::buffer::Buffer::flush"
	testb	%al, %al
	je	.LBB33_153
	movq	1032(%rbx), %rdx
	movb	$1, %cl
	cmpq	$1023, %rdx
	ja	.LBB33_5
.LBB33_133:
	movb	$111, 4(%rbx,%rdx)
	leaq	1(%rdx), %rax
	movq	%rax, 1032(%rbx)
	cmpq	$1023, %rdx
	jb	.LBB33_136
	movq	%rbx, %rdi
	callq	"std_io::io::buffer::Buffer::flush"
	testb	%al, %al
	je	.LBB33_153
	movq	1032(%rbx), %rax
	movb	$1, %cl
	cmpq	$1023, %rax
	ja	.LBB33_5
.LBB33_136:
	movb	$111, 4(%rbx,%rax)
	leaq	1(%rax), %rdx
	movq	%rdx, 1032(%rbx)
	cmpq	$1023, %rax
	jb	.LBB33_139
	movq	%rbx, %rdi
	callq	"std_io::io::buffer::Buffer::flush"
	testb	%al, %al
	je	.LBB33_153
	movq	1032(%rbx), %rdx
	movb	$1, %cl
	cmpq	$1023, %rdx
	ja	.LBB33_5
.LBB33_139:
	movb	$32, 4(%rbx,%rdx)
	leaq	1(%rdx), %rax
	movq	%rax, 1032(%rbx)
	cmpq	$1023, %rdx
	jb	.LBB33_142
	movq	%rbx, %rdi
	callq	"std_io::io::buffer::Buffer::flush"
	testb	%al, %al
	je	.LBB33_153
	movq	1032(%rbx), %rax
	movb	$1, %cl
	cmpq	$1023, %rax
	ja	.LBB33_5
.LBB33_142:
	movb	$108, 4(%rbx,%rax)
	leaq	1(%rax), %rdx
	movq	%rdx, 1032(%rbx)
	cmpq	$1023, %rax
	jb	.LBB33_145
	movq	%rbx, %rdi
	callq	"std_io::io::buffer::Buffer::flush"
	testb	%al, %al
	je	.LBB33_153
	movq	1032(%rbx), %rdx
	movb	$1, %cl
	cmpq	$1023, %rdx
	ja	.LBB33_5
.LBB33_145:
	movb	$97, 4(%rbx,%rdx)
	leaq	1(%rdx), %rax
	movq	%rax, 1032(%rbx)
	cmpq	$1023, %rdx
	jb	.LBB33_148
	movq	%rbx, %rdi
	callq	"std_io::io::buffer::Buffer::flush"
	testb	%al, %al
	je	.LBB33_153
	movq	1032(%rbx), %rax
	movb	$1, %cl
	cmpq	$1023, %rax
	ja	.LBB33_5
.LBB33_148:
	movb	$114, 4(%rbx,%rax)
	leaq	1(%rax), %rdx
	movq	%rdx, 1032(%rbx)
	cmpq	$1023, %rax
	jb	.LBB33_151
	movq	%rbx, %rdi
	callq	"std_io::io::buffer::Buffer::flush"
	testb	%al, %al
	je	.LBB33_153
	movq	1032(%rbx), %rdx
	movb	$1, %cl
	cmpq	$1023, %rdx
	ja	.LBB33_5
.LBB33_151:
	movb	$103, 4(%rbx,%rdx)
	leaq	1(%rdx), %rax
	movq	%rax, 1032(%rbx)
	cmpq	$1023, %rdx
	jb	.LBB33_1234
	movq	%rbx, %rdi
	callq	"std_io::io::buffer::Buffer::flush"
	testb	%al, %al
	jne	.LBB33_616
	jmp	.LBB33_153
.LBB33_154:
	testq	%rax, %rax
	jne	.LBB33_1647
	movq	1032(%rbx), %rax
	xorl	%r14d, %r14d
	jmp	.LBB33_157
	.p2align	4
.LBB33_156:
	movb	%bpl, 4(%rbx,%rax)
	incq	%rax
	movq	%rax, 1032(%rbx)
	incq	%r14
	xorl	%ecx, %ecx
	cmpq	$22, %r14
	je	.LBB33_5
.LBB33_157:
	leaq	.Lstatic.152(%rip), %rcx
	movzbl	(%r14,%rcx), %ebp
	cmpq	$1024, %rax
	jb	.LBB33_156
	movq	%rbx, %rdi
	callq	"std_io::io::buffer::Buffer::flush"
	movb	$1, %cl
	testb	%al, %al
	je	.LBB33_5
	movq	1032(%rbx), %rax
	cmpq	$1023, %rax
	jbe	.LBB33_156
	jmp	.LBB33_5
.LBB33_160:
	testq	%rax, %rax
	jne	.LBB33_1648
	movq	1032(%rbx), %rdx
	cmpq	$1024, %rdx
	jb	.LBB33_164
	movq	%rbx, %rdi
	callq	"std_io::io::buffer::Buffer::flush"
	testb	%al, %al
	je	.LBB33_153
	movq	1032(%rbx), %rdx
	movb	$1, %cl
	cmpq	$1023, %rdx
	ja	.LBB33_5
.LBB33_164:
	movb	$100, 4(%rbx,%rdx)
	leaq	1(%rdx), %rax
	movq	%rax, 1032(%rbx)
	cmpq	$1023, %rdx
	jne	.LBB33_167
	movq	%rbx, %rdi
	callq	"std_io::io::buffer::Buffer::flush"
	testb	%al, %al
	je	.LBB33_153
	movq	1032(%rbx), %rax
	movb	$1, %cl
	cmpq	$1023, %rax
	ja	.LBB33_5
.LBB33_167:
	movb	$105, 4(%rbx,%rax)
	leaq	1(%rax), %rdx
	movq	%rdx, 1032(%rbx)
	cmpq	$1023, %rax
	jb	.LBB33_170
	movq	%rbx, %rdi
	callq	"std_io::io::buffer::Buffer::flush"
	testb	%al, %al
	je	.LBB33_153
	movq	1032(%rbx), %rdx
	movb	$1, %cl
	cmpq	$1023, %rdx
	ja	.LBB33_5
.LBB33_170:
	movb	$114, 4(%rbx,%rdx)
	leaq	1(%rdx), %rax
	movq	%rax, 1032(%rbx)
	cmpq	$1023, %rdx
	jb	.LBB33_173
	movq	%rbx, %rdi
	callq	"std_io::io::buffer::Buffer::flush"
	testb	%al, %al
	je	.LBB33_153
	movq	1032(%rbx), %rax
	movb	$1, %cl
	cmpq	$1023, %rax
	ja	.LBB33_5
.LBB33_173:
	movb	$101, 4(%rbx,%rax)
	leaq	1(%rax), %rdx
	movq	%rdx, 1032(%rbx)
	cmpq	$1023, %rax
	jb	.LBB33_176
	movq	%rbx, %rdi
	callq	"std_io::io::buffer::Buffer::flush"
	testb	%al, %al
	je	.LBB33_153
	movq	1032(%rbx), %rdx
	movb	$1, %cl
	cmpq	$1023, %rdx
	ja	.LBB33_5
.LBB33_176:
	movb	$99, 4(%rbx,%rdx)
	leaq	1(%rdx), %rax
	movq	%rax, 1032(%rbx)
	cmpq	$1023, %rdx
	jb	.LBB33_179
	movq	%rbx, %rdi
	callq	"std_io::io::buffer::Buffer::flush"
	testb	%al, %al
	je	.LBB33_153
	movq	1032(%rbx), %rax
	movb	$1, %cl
	cmpq	$1023, %rax
	ja	.LBB33_5
.LBB33_179:
	movb	$116, 4(%rbx,%rax)
	leaq	1(%rax), %rdx
	movq	%rdx, 1032(%rbx)
	cmpq	$1023, %rax
	jb	.LBB33_182
	movq	%rbx, %rdi
	callq	"std_io::io::buffer::Buffer::flush"
	testb	%al, %al
	je	.LBB33_153
	movq	1032(%rbx), %rdx
	movb	$1, %cl
	cmpq	$1023, %rdx
	ja	.LBB33_5
.LBB33_182:
	movb	$111, 4(%rbx,%rdx)
	leaq	1(%rdx), %rax
	movq	%rax, 1032(%rbx)
	cmpq	$1023, %rdx
	jb	.LBB33_185
	movq	%rbx, %rdi
	callq	"std_io::io::buffer::Buffer::flush"
	testb	%al, %al
	je	.LBB33_153
	movq	1032(%rbx), %rax
	movb	$1, %cl
	cmpq	$1023, %rax
	ja	.LBB33_5
.LBB33_185:
	movb	$114, 4(%rbx,%rax)
	leaq	1(%rax), %rdx
	movq	%rdx, 1032(%rbx)
	cmpq	$1023, %rax
	jb	.LBB33_188
	movq	%rbx, %rdi
	callq	"std_io::io::buffer::Buffer::flush"
	testb	%al, %al
	je	.LBB33_153
	movq	1032(%rbx), %rdx
	movb	$1, %cl
	cmpq	$1023, %rdx
	ja	.LBB33_5
.LBB33_188:
	movb	$121, 4(%rbx,%rdx)
	leaq	1(%rdx), %rax
	movq	%rax, 1032(%rbx)
	cmpq	$1023, %rdx
	jb	.LBB33_191
	movq	%rbx, %rdi
	callq	"std_io::io::buffer::Buffer::flush"
	testb	%al, %al
	je	.LBB33_153
	movq	1032(%rbx), %rax
	movb	$1, %cl
	cmpq	$1023, %rax
	ja	.LBB33_5
.LBB33_191:
	movb	$32, 4(%rbx,%rax)
	leaq	1(%rax), %rdx
	movq	%rdx, 1032(%rbx)
	cmpq	$1023, %rax
	jb	.LBB33_194
	movq	%rbx, %rdi
	callq	"std_io::io::buffer::Buffer::flush"
	testb	%al, %al
	je	.LBB33_217
	movq	1032(%rbx), %rdx
	movb	$1, %cl
	cmpq	$1023, %rdx
	ja	.LBB33_5
.LBB33_194:
	movb	$110, 4(%rbx,%rdx)
	leaq	1(%rdx), %rax
	movq	%rax, 1032(%rbx)
	cmpq	$1023, %rdx
	jb	.LBB33_197
	movq	%rbx, %rdi
	callq	"std_io::io::buffer::Buffer::flush"
	testb	%al, %al
	je	.LBB33_217
	movq	1032(%rbx), %rax
	movb	$1, %cl
	cmpq	$1023, %rax
	ja	.LBB33_5
.LBB33_197:
	movb	$111, 4(%rbx,%rax)
	leaq	1(%rax), %rdx
	movq	%rdx, 1032(%rbx)
	cmpq	$1023, %rax
	jb	.LBB33_200
	movq	%rbx, %rdi
	callq	"std_io::io::buffer::Buffer::flush"
	testb	%al, %al
	je	.LBB33_217
	movq	1032(%rbx), %rdx
	movb	$1, %cl
	cmpq	$1023, %rdx
	ja	.LBB33_5
.LBB33_200:
	movb	$116, 4(%rbx,%rdx)
	leaq	1(%rdx), %rax
	movq	%rax, 1032(%rbx)
	cmpq	$1023, %rdx
	jb	.LBB33_203
	movq	%rbx, %rdi
	callq	"std_io::io::buffer::Buffer::flush"
	testb	%al, %al
	je	.LBB33_217
	movq	1032(%rbx), %rax
	movb	$1, %cl
	cmpq	$1023, %rax
	ja	.LBB33_5
.LBB33_203:
	movb	$32, 4(%rbx,%rax)
	leaq	1(%rax), %rdx
	movq	%rdx, 1032(%rbx)
	cmpq	$1023, %rax
	jb	.LBB33_206
	movq	%rbx, %rdi
	callq	"std_io::io::buffer::Buffer::flush"
	testb	%al, %al
	je	.LBB33_217
	movq	1032(%rbx), %rdx
	movb	$1, %cl
	cmpq	$1023, %rdx
	ja	.LBB33_5
.LBB33_206:
	movb	$101, 4(%rbx,%rdx)
	leaq	1(%rdx), %rax
	movq	%rax, 1032(%rbx)
	cmpq	$1023, %rdx
	jb	.LBB33_209
	movq	%rbx, %rdi
	callq	"std_io::io::buffer::Buffer::flush"
	testb	%al, %al
	je	.LBB33_217
	movq	1032(%rbx), %rax
	movb	$1, %cl
	cmpq	$1023, %rax
	ja	.LBB33_5
.LBB33_209:
	movb	$109, 4(%rbx,%rax)
	leaq	1(%rax), %rdx
	movq	%rdx, 1032(%rbx)
	cmpq	$1023, %rax
	jb	.LBB33_212
	movq	%rbx, %rdi
	callq	"std_io::io::buffer::Buffer::flush"
	testb	%al, %al
	je	.LBB33_217
	movq	1032(%rbx), %rdx
	movb	$1, %cl
	cmpq	$1023, %rdx
	ja	.LBB33_5
.LBB33_212:
	movb	$112, 4(%rbx,%rdx)
	leaq	1(%rdx), %rax
	movq	%rax, 1032(%rbx)
	cmpq	$1023, %rdx
	jb	.LBB33_215
	movq	%rbx, %rdi
	callq	"std_io::io::buffer::Buffer::flush"
	testb	%al, %al
	je	.LBB33_217
	movq	1032(%rbx), %rax
	movb	$1, %cl
	cmpq	$1023, %rax
	ja	.LBB33_5
.LBB33_215:
	movb	$116, 4(%rbx,%rax)
	leaq	1(%rax), %rdx
	movq	%rdx, 1032(%rbx)
	cmpq	$1023, %rax
	jb	.LBB33_264
	movq	%rbx, %rdi
	callq	"std_io::io::buffer::Buffer::flush"
	testb	%al, %al
	jne	.LBB33_1448
	jmp	.LBB33_217
.LBB33_218:
	testq	%rax, %rax
	jne	.LBB33_1649
	movq	1032(%rbx), %rdx
	cmpq	$1024, %rdx
	jb	.LBB33_222
	movq	%rbx, %rdi
	callq	"std_io::io::buffer::Buffer::flush"
	movb	$1, %cl
	testb	%al, %al
	je	.LBB33_5
	movq	1032(%rbx), %rdx
	cmpq	$1023, %rdx
	ja	.LBB33_5
.LBB33_222:
	movb	$110, 4(%rbx,%rdx)
	leaq	1(%rdx), %rax
	movq	%rax, 1032(%rbx)
	cmpq	$1023, %rdx
	jne	.LBB33_225
	movq	%rbx, %rdi
	callq	"std_io::io::buffer::Buffer::flush"
	movb	$1, %cl
	testb	%al, %al
	je	.LBB33_5
	movq	1032(%rbx), %rax
	cmpq	$1023, %rax
	ja	.LBB33_5
.LBB33_225:
	movb	$111, 4(%rbx,%rax)
	leaq	1(%rax), %rdx
	movq	%rdx, 1032(%rbx)
	cmpq	$1023, %rax
	jb	.LBB33_228
	movq	%rbx, %rdi
	callq	"std_io::io::buffer::Buffer::flush"
	movb	$1, %cl
	testb	%al, %al
	je	.LBB33_5
	movq	1032(%rbx), %rdx
	cmpq	$1023, %rdx
	ja	.LBB33_5
.LBB33_228:
	movb	$116, 4(%rbx,%rdx)
	leaq	1(%rdx), %rax
	movq	%rax, 1032(%rbx)
	cmpq	$1023, %rdx
	jb	.LBB33_231
	movq	%rbx, %rdi
	callq	"std_io::io::buffer::Buffer::flush"
	movb	$1, %cl
	testb	%al, %al
	je	.LBB33_5
	movq	1032(%rbx), %rax
	cmpq	$1023, %rax
	ja	.LBB33_5
.LBB33_231:
	movb	$32, 4(%rbx,%rax)
	leaq	1(%rax), %rdx
	movq	%rdx, 1032(%rbx)
	cmpq	$1023, %rax
	jb	.LBB33_234
	movq	%rbx, %rdi
	callq	"std_io::io::buffer::Buffer::flush"
	movb	$1, %cl
	testb	%al, %al
	je	.LBB33_5
	movq	1032(%rbx), %rdx
	cmpq	$1023, %rdx
	ja	.LBB33_5
.LBB33_234:
	movb	$97, 4(%rbx,%rdx)
	leaq	1(%rdx), %rax
	movq	%rax, 1032(%rbx)
	cmpq	$1023, %rdx
	jb	.LBB33_237
	movq	%rbx, %rdi
	callq	"std_io::io::buffer::Buffer::flush"
	movb	$1, %cl
	testb	%al, %al
	je	.LBB33_5
	movq	1032(%rbx), %rax
	cmpq	$1023, %rax
	ja	.LBB33_5
.LBB33_237:
	movb	$32, 4(%rbx,%rax)
	leaq	1(%rax), %rdx
	movq	%rdx, 1032(%rbx)
	cmpq	$1023, %rax
	jb	.LBB33_240
	movq	%rbx, %rdi
	callq	"std_io::io::buffer::Buffer::flush"
	movb	$1, %cl
	testb	%al, %al
	je	.LBB33_5
	movq	1032(%rbx), %rdx
	cmpq	$1023, %rdx
	ja	.LBB33_5
.LBB33_240:
	movb	$100, 4(%rbx,%rdx)
	leaq	1(%rdx), %rax
	movq	%rax, 1032(%rbx)
	cmpq	$1023, %rdx
	jb	.LBB33_243
	movq	%rbx, %rdi
	callq	"std_io::io::buffer::Buffer::flush"
	movb	$1, %cl
	testb	%al, %al
	je	.LBB33_5
	movq	1032(%rbx), %rax
	cmpq	$1023, %rax
	ja	.LBB33_5
.LBB33_243:
	movb	$105, 4(%rbx,%rax)
	leaq	1(%rax), %rdx
	movq	%rdx, 1032(%rbx)
	cmpq	$1023, %rax
	jb	.LBB33_246
	movq	%rbx, %rdi
	callq	"std_io::io::buffer::Buffer::flush"
	movb	$1, %cl
	testb	%al, %al
	je	.LBB33_5
	movq	1032(%rbx), %rdx
	cmpq	$1023, %rdx
	ja	.LBB33_5
.LBB33_246:
	movb	$114, 4(%rbx,%rdx)
	leaq	1(%rdx), %rax
	movq	%rax, 1032(%rbx)
	cmpq	$1023, %rdx
	jb	.LBB33_249
	movq	%rbx, %rdi
	callq	"std_io::io::buffer::Buffer::flush"
	movb	$1, %cl
	testb	%al, %al
	je	.LBB33_5
	movq	1032(%rbx), %rax
	cmpq	$1023, %rax
	ja	.LBB33_5
.LBB33_249:
	movb	$101, 4(%rbx,%rax)
	leaq	1(%rax), %rdx
	movq	%rdx, 1032(%rbx)
	cmpq	$1023, %rax
	jb	.LBB33_252
	movq	%rbx, %rdi
	callq	"std_io::io::buffer::Buffer::flush"
	movb	$1, %cl
	testb	%al, %al
	je	.LBB33_5
	movq	1032(%rbx), %rdx
	cmpq	$1023, %rdx
	ja	.LBB33_5
.LBB33_252:
	movb	$99, 4(%rbx,%rdx)
	leaq	1(%rdx), %rax
	movq	%rax, 1032(%rbx)
	cmpq	$1023, %rdx
	jb	.LBB33_255
	movq	%rbx, %rdi
	callq	"std_io::io::buffer::Buffer::flush"
	movb	$1, %cl
	testb	%al, %al
	je	.LBB33_5
	movq	1032(%rbx), %rax
	cmpq	$1023, %rax
	ja	.LBB33_5
.LBB33_255:
	movb	$116, 4(%rbx,%rax)
	leaq	1(%rax), %rdx
	movq	%rdx, 1032(%rbx)
	cmpq	$1023, %rax
	jb	.LBB33_258
	movq	%rbx, %rdi
	callq	"std_io::io::buffer::Buffer::flush"
	movb	$1, %cl
	testb	%al, %al
	je	.LBB33_5
	movq	1032(%rbx), %rdx
	cmpq	$1023, %rdx
	ja	.LBB33_5
.LBB33_258:
	movb	$111, 4(%rbx,%rdx)
	leaq	1(%rdx), %rax
	movq	%rax, 1032(%rbx)
	cmpq	$1023, %rdx
	jb	.LBB33_261
	movq	%rbx, %rdi
	callq	"std_io::io::buffer::Buffer::flush"
	movb	$1, %cl
	testb	%al, %al
	je	.LBB33_5
	movq	1032(%rbx), %rax
	cmpq	$1023, %rax
	ja	.LBB33_5
.LBB33_261:
	movb	$114, 4(%rbx,%rax)
	leaq	1(%rax), %rdx
	movq	%rdx, 1032(%rbx)
	cmpq	$1023, %rax
	jb	.LBB33_264
	movq	%rbx, %rdi
	callq	"std_io::io::buffer::Buffer::flush"
	movb	$1, %cl
	testb	%al, %al
	je	.LBB33_5
	movq	1032(%rbx), %rdx
	cmpq	$1023, %rdx
	ja	.LBB33_5
	jmp	.LBB33_264
.LBB33_265:
	testq	%rax, %rax
	jne	.LBB33_1650
	movq	1032(%rbx), %rdx
	cmpq	$1024, %rdx
	jb	.LBB33_269
	movq	%rbx, %rdi
	callq	"std_io::io::buffer::Buffer::flush"
	testb	%al, %al
	je	.LBB33_110
	movq	1032(%rbx), %rdx
	movb	$1, %cl
	cmpq	$1023, %rdx
	ja	.LBB33_5
.LBB33_269:
	movb	$105, 4(%rbx,%rdx)
	leaq	1(%rdx), %rax
	movq	%rax, 1032(%rbx)
	cmpq	$1023, %rdx
	jne	.LBB33_272
	movq	%rbx, %rdi
	callq	"std_io::io::buffer::Buffer::flush"
	testb	%al, %al
	je	.LBB33_110
	movq	1032(%rbx), %rax
	movb	$1, %cl
	cmpq	$1023, %rax
	ja	.LBB33_5
.LBB33_272:
	movb	$110, 4(%rbx,%rax)
	leaq	1(%rax), %rdx
	movq	%rdx, 1032(%rbx)
	cmpq	$1023, %rax
	jb	.LBB33_275
	movq	%rbx, %rdi
	callq	"std_io::io::buffer::Buffer::flush"
	testb	%al, %al
	je	.LBB33_110
	movq	1032(%rbx), %rdx
	movb	$1, %cl
	cmpq	$1023, %rdx
	ja	.LBB33_5
.LBB33_275:
	movb	$118, 4(%rbx,%rdx)
	leaq	1(%rdx), %rax
	movq	%rax, 1032(%rbx)
	cmpq	$1023, %rdx
	jb	.LBB33_278
	movq	%rbx, %rdi
	callq	"std_io::io::buffer::Buffer::flush"
	testb	%al, %al
	je	.LBB33_110
	movq	1032(%rbx), %rax
	movb	$1, %cl
	cmpq	$1023, %rax
	ja	.LBB33_5
.LBB33_278:
	movb	$97, 4(%rbx,%rax)
	leaq	1(%rax), %rdx
	movq	%rdx, 1032(%rbx)
	cmpq	$1023, %rax
	jb	.LBB33_281
	movq	%rbx, %rdi
	callq	"std_io::io::buffer::Buffer::flush"
	testb	%al, %al
	je	.LBB33_110
	movq	1032(%rbx), %rdx
	movb	$1, %cl
	cmpq	$1023, %rdx
	ja	.LBB33_5
.LBB33_281:
	movb	$108, 4(%rbx,%rdx)
	leaq	1(%rdx), %rax
	movq	%rax, 1032(%rbx)
	cmpq	$1023, %rdx
	jb	.LBB33_284
	movq	%rbx, %rdi
	callq	"std_io::io::buffer::Buffer::flush"
	testb	%al, %al
	je	.LBB33_110
	movq	1032(%rbx), %rax
	movb	$1, %cl
	cmpq	$1023, %rax
	ja	.LBB33_5
.LBB33_284:
	movb	$105, 4(%rbx,%rax)
	leaq	1(%rax), %rdx
	movq	%rdx, 1032(%rbx)
	cmpq	$1023, %rax
	jb	.LBB33_287
	movq	%rbx, %rdi
	callq	"std_io::io::buffer::Buffer::flush"
	testb	%al, %al
	je	.LBB33_153
	movq	1032(%rbx), %rdx
	movb	$1, %cl
	cmpq	$1023, %rdx
	ja	.LBB33_5
.LBB33_287:
	movb	$100, 4(%rbx,%rdx)
	leaq	1(%rdx), %rax
	movq	%rax, 1032(%rbx)
	cmpq	$1023, %rdx
	jb	.LBB33_290
	movq	%rbx, %rdi
	callq	"std_io::io::buffer::Buffer::flush"
	testb	%al, %al
	je	.LBB33_153
	movq	1032(%rbx), %rax
	movb	$1, %cl
	cmpq	$1023, %rax
	ja	.LBB33_5
.LBB33_290:
	movb	$32, 4(%rbx,%rax)
	leaq	1(%rax), %rdx
	movq	%rdx, 1032(%rbx)
	cmpq	$1023, %rax
	jb	.LBB33_293
	movq	%rbx, %rdi
	callq	"std_io::io::buffer::Buffer::flush"
	testb	%al, %al
	je	.LBB33_153
	movq	1032(%rbx), %rdx
	movb	$1, %cl
	cmpq	$1023, %rdx
	ja	.LBB33_5
.LBB33_293:
	movb	$102, 4(%rbx,%rdx)
	leaq	1(%rdx), %rax
	movq	%rax, 1032(%rbx)
	cmpq	$1023, %rdx
	jb	.LBB33_296
	movq	%rbx, %rdi
	callq	"std_io::io::buffer::Buffer::flush"
	testb	%al, %al
	je	.LBB33_153
	movq	1032(%rbx), %rax
	movb	$1, %cl
	cmpq	$1023, %rax
	ja	.LBB33_5
.LBB33_296:
	movb	$105, 4(%rbx,%rax)
	leaq	1(%rax), %rdx
	movq	%rdx, 1032(%rbx)
	cmpq	$1023, %rax
	jb	.LBB33_299
	movq	%rbx, %rdi
	callq	"std_io::io::buffer::Buffer::flush"
	testb	%al, %al
	je	.LBB33_153
	movq	1032(%rbx), %rdx
	movb	$1, %cl
	cmpq	$1023, %rdx
	ja	.LBB33_5
.LBB33_299:
	movb	$108, 4(%rbx,%rdx)
	leaq	1(%rdx), %rax
	movq	%rax, 1032(%rbx)
	cmpq	$1023, %rdx
	jb	.LBB33_302
	movq	%rbx, %rdi
	callq	"std_io::io::buffer::Buffer::flush"
	testb	%al, %al
	je	.LBB33_153
	movq	1032(%rbx), %rax
	movb	$1, %cl
	cmpq	$1023, %rax
	ja	.LBB33_5
.LBB33_302:
	movb	$101, 4(%rbx,%rax)
	leaq	1(%rax), %rdx
	movq	%rdx, 1032(%rbx)
	cmpq	$1023, %rax
	jb	.LBB33_305
	movq	%rbx, %rdi
	callq	"std_io::io::buffer::Buffer::flush"
	testb	%al, %al
	je	.LBB33_153
	movq	1032(%rbx), %rdx
	movb	$1, %cl
	cmpq	$1023, %rdx
	ja	.LBB33_5
.LBB33_305:
	movb	$110, 4(%rbx,%rdx)
	leaq	1(%rdx), %rax
	movq	%rax, 1032(%rbx)
	cmpq	$1023, %rdx
	jb	.LBB33_308
	movq	%rbx, %rdi
	callq	"std_io::io::buffer::Buffer::flush"
	testb	%al, %al
	je	.LBB33_153
	movq	1032(%rbx), %rax
	movb	$1, %cl
	cmpq	$1023, %rax
	ja	.LBB33_5
.LBB33_308:
	movb	$97, 4(%rbx,%rax)
	leaq	1(%rax), %rdx
	movq	%rdx, 1032(%rbx)
	cmpq	$1023, %rax
	jb	.LBB33_311
	movq	%rbx, %rdi
	callq	"std_io::io::buffer::Buffer::flush"
	testb	%al, %al
	je	.LBB33_153
	movq	1032(%rbx), %rdx
	movb	$1, %cl
	cmpq	$1023, %rdx
	ja	.LBB33_5
.LBB33_311:
	movb	$109, 4(%rbx,%rdx)
	leaq	1(%rdx), %rax
	movq	%rax, 1032(%rbx)
	cmpq	$1023, %rdx
	jb	.LBB33_314
	movq	%rbx, %rdi
	callq	"std_io::io::buffer::Buffer::flush"
	testb	%al, %al
	je	.LBB33_153
	movq	1032(%rbx), %rax
	movb	$1, %cl
	cmpq	$1023, %rax
	ja	.LBB33_5
.LBB33_314:
	movb	$101, 4(%rbx,%rax)
	jmp	.LBB33_1262
.LBB33_315:
	testq	%rax, %rax
	jne	.LBB33_1651
	movq	1032(%rbx), %rdx
	cmpq	$1024, %rdx
	jb	.LBB33_319
	movq	%rbx, %rdi
	callq	"std_io::io::buffer::Buffer::flush"
	movb	$1, %cl
	testb	%al, %al
	je	.LBB33_5
	movq	1032(%rbx), %rdx
	cmpq	$1023, %rdx
	ja	.LBB33_5
.LBB33_319:
	movb	$98, 4(%rbx,%rdx)
	leaq	1(%rdx), %rax
	movq	%rax, 1032(%rbx)
	cmpq	$1023, %rdx
	jne	.LBB33_322
	movq	%rbx, %rdi
	callq	"std_io::io::buffer::Buffer::flush"
	movb	$1, %cl
	testb	%al, %al
	je	.LBB33_5
	movq	1032(%rbx), %rax
	cmpq	$1023, %rax
	ja	.LBB33_5
.LBB33_322:
	movb	$114, 4(%rbx,%rax)
	leaq	1(%rax), %rdx
	movq	%rdx, 1032(%rbx)
	cmpq	$1023, %rax
	jb	.LBB33_325
	movq	%rbx, %rdi
	callq	"std_io::io::buffer::Buffer::flush"
	movb	$1, %cl
	testb	%al, %al
	je	.LBB33_5
	movq	1032(%rbx), %rdx
	cmpq	$1023, %rdx
	ja	.LBB33_5
.LBB33_325:
	movb	$111, 4(%rbx,%rdx)
	leaq	1(%rdx), %rax
	movq	%rax, 1032(%rbx)
	cmpq	$1023, %rdx
	jb	.LBB33_328
	movq	%rbx, %rdi
	callq	"std_io::io::buffer::Buffer::flush"
	movb	$1, %cl
	testb	%al, %al
	je	.LBB33_5
	movq	1032(%rbx), %rax
	cmpq	$1023, %rax
	ja	.LBB33_5
.LBB33_328:
	movb	$107, 4(%rbx,%rax)
	leaq	1(%rax), %rdx
	movq	%rdx, 1032(%rbx)
	cmpq	$1023, %rax
	jb	.LBB33_331
	movq	%rbx, %rdi
	callq	"std_io::io::buffer::Buffer::flush"
	movb	$1, %cl
	testb	%al, %al
	je	.LBB33_5
	movq	1032(%rbx), %rdx
	cmpq	$1023, %rdx
	ja	.LBB33_5
.LBB33_331:
	movb	$101, 4(%rbx,%rdx)
	leaq	1(%rdx), %rax
	movq	%rax, 1032(%rbx)
	cmpq	$1023, %rdx
	jb	.LBB33_334
	movq	%rbx, %rdi
	callq	"std_io::io::buffer::Buffer::flush"
	movb	$1, %cl
	testb	%al, %al
	je	.LBB33_5
	movq	1032(%rbx), %rax
	cmpq	$1023, %rax
	ja	.LBB33_5
.LBB33_334:
	movb	$110, 4(%rbx,%rax)
	leaq	1(%rax), %rdx
	movq	%rdx, 1032(%rbx)
	cmpq	$1023, %rax
	jb	.LBB33_337
	movq	%rbx, %rdi
	callq	"std_io::io::buffer::Buffer::flush"
	movb	$1, %cl
	testb	%al, %al
	je	.LBB33_5
	movq	1032(%rbx), %rdx
	cmpq	$1023, %rdx
	ja	.LBB33_5
.LBB33_337:
	movb	$32, 4(%rbx,%rdx)
	leaq	1(%rdx), %rax
	movq	%rax, 1032(%rbx)
	cmpq	$1023, %rdx
	jb	.LBB33_340
	movq	%rbx, %rdi
	callq	"std_io::io::buffer::Buffer::flush"
	movb	$1, %cl
	testb	%al, %al
	je	.LBB33_5
	movq	1032(%rbx), %rax
	cmpq	$1023, %rax
	ja	.LBB33_5
.LBB33_340:
	movb	$112, 4(%rbx,%rax)
	leaq	1(%rax), %rdx
	movq	%rdx, 1032(%rbx)
	cmpq	$1023, %rax
	jb	.LBB33_343
	movq	%rbx, %rdi
	callq	"std_io::io::buffer::Buffer::flush"
	movb	$1, %cl
	testb	%al, %al
	je	.LBB33_5
	movq	1032(%rbx), %rdx
	cmpq	$1023, %rdx
	ja	.LBB33_5
.LBB33_343:
	movb	$105, 4(%rbx,%rdx)
	leaq	1(%rdx), %rax
	movq	%rax, 1032(%rbx)
	cmpq	$1023, %rdx
	jb	.LBB33_346
	movq	%rbx, %rdi
	callq	"std_io::io::buffer::Buffer::flush"
	movb	$1, %cl
	testb	%al, %al
	je	.LBB33_5
	movq	1032(%rbx), %rax
	cmpq	$1023, %rax
	ja	.LBB33_5
.LBB33_346:
	movb	$112, 4(%rbx,%rax)
	leaq	1(%rax), %rdx
	movq	%rdx, 1032(%rbx)
	cmpq	$1023, %rax
	jb	.LBB33_349
.LBB33_347:
	movq	%rbx, %rdi
	callq	"std_io::io::buffer::Buffer::flush"
	movb	$1, %cl
	testb	%al, %al
	je	.LBB33_5
	movq	1032(%rbx), %rdx
	cmpq	$1023, %rdx
	ja	.LBB33_5
.LBB33_349:
	movb	$101, 4(%rbx,%rdx)
	jmp	.LBB33_806
.LBB33_350:
	testq	%rax, %rax
	jne	.LBB33_1652
	movq	1032(%rbx), %rdx
	cmpq	$1024, %rdx
	jb	.LBB33_354
	movq	%rbx, %rdi
	callq	"std_io::io::buffer::Buffer::flush"
	movb	$1, %cl
	testb	%al, %al
	je	.LBB33_5
	movq	1032(%rbx), %rdx
	cmpq	$1023, %rdx
	ja	.LBB33_5
.LBB33_354:
	movb	$104, 4(%rbx,%rdx)
	leaq	1(%rdx), %rax
	movq	%rax, 1032(%rbx)
	cmpq	$1023, %rdx
	jne	.LBB33_357
	movq	%rbx, %rdi
	callq	"std_io::io::buffer::Buffer::flush"
	movb	$1, %cl
	testb	%al, %al
	je	.LBB33_5
	movq	1032(%rbx), %rax
	cmpq	$1023, %rax
	ja	.LBB33_5
.LBB33_357:
	movb	$111, 4(%rbx,%rax)
	leaq	1(%rax), %rdx
	movq	%rdx, 1032(%rbx)
	cmpq	$1023, %rax
	jb	.LBB33_360
	movq	%rbx, %rdi
	callq	"std_io::io::buffer::Buffer::flush"
	movb	$1, %cl
	testb	%al, %al
	je	.LBB33_5
	movq	1032(%rbx), %rdx
	cmpq	$1023, %rdx
	ja	.LBB33_5
.LBB33_360:
	movb	$115, 4(%rbx,%rdx)
	leaq	1(%rdx), %rax
	movq	%rax, 1032(%rbx)
	cmpq	$1023, %rdx
	jb	.LBB33_363
	movq	%rbx, %rdi
	callq	"std_io::io::buffer::Buffer::flush"
	movb	$1, %cl
	testb	%al, %al
	je	.LBB33_5
	movq	1032(%rbx), %rax
	cmpq	$1023, %rax
	ja	.LBB33_5
.LBB33_363:
	movb	$116, 4(%rbx,%rax)
	leaq	1(%rax), %rdx
	movq	%rdx, 1032(%rbx)
	cmpq	$1023, %rax
	jb	.LBB33_366
	movq	%rbx, %rdi
	callq	"std_io::io::buffer::Buffer::flush"
	movb	$1, %cl
	testb	%al, %al
	je	.LBB33_5
	movq	1032(%rbx), %rdx
	cmpq	$1023, %rdx
	ja	.LBB33_5
.LBB33_366:
	movb	$32, 4(%rbx,%rdx)
	leaq	1(%rdx), %rax
	movq	%rax, 1032(%rbx)
	cmpq	$1023, %rdx
	jb	.LBB33_369
	movq	%rbx, %rdi
	callq	"std_io::io::buffer::Buffer::flush"
	movb	$1, %cl
	testb	%al, %al
	je	.LBB33_5
	movq	1032(%rbx), %rax
	cmpq	$1023, %rax
	ja	.LBB33_5
.LBB33_369:
	movb	$117, 4(%rbx,%rax)
	leaq	1(%rax), %rdx
	movq	%rdx, 1032(%rbx)
	cmpq	$1023, %rax
	jb	.LBB33_372
	movq	%rbx, %rdi
	callq	"std_io::io::buffer::Buffer::flush"
	movb	$1, %cl
	testb	%al, %al
	je	.LBB33_5
	movq	1032(%rbx), %rdx
	cmpq	$1023, %rdx
	ja	.LBB33_5
.LBB33_372:
	movb	$110, 4(%rbx,%rdx)
	leaq	1(%rdx), %rax
	movq	%rax, 1032(%rbx)
	cmpq	$1023, %rdx
	jb	.LBB33_375
	movq	%rbx, %rdi
	callq	"std_io::io::buffer::Buffer::flush"
	movb	$1, %cl
	testb	%al, %al
	je	.LBB33_5
	movq	1032(%rbx), %rax
	cmpq	$1023, %rax
	ja	.LBB33_5
.LBB33_375:
	movb	$114, 4(%rbx,%rax)
	leaq	1(%rax), %rdx
	movq	%rdx, 1032(%rbx)
	cmpq	$1023, %rax
	jb	.LBB33_378
	movq	%rbx, %rdi
	callq	"std_io::io::buffer::Buffer::flush"
	movb	$1, %cl
	testb	%al, %al
	je	.LBB33_5
	movq	1032(%rbx), %rdx
	cmpq	$1023, %rdx
	ja	.LBB33_5
.LBB33_378:
	movb	$101, 4(%rbx,%rdx)
	leaq	1(%rdx), %rax
	movq	%rax, 1032(%rbx)
	cmpq	$1023, %rdx
	jb	.LBB33_381
	movq	%rbx, %rdi
	callq	"std_io::io::buffer::Buffer::flush"
	movb	$1, %cl
	testb	%al, %al
	je	.LBB33_5
	movq	1032(%rbx), %rax
	cmpq	$1023, %rax
	ja	.LBB33_5
.LBB33_381:
	movb	$97, 4(%rbx,%rax)
	leaq	1(%rax), %rdx
	movq	%rdx, 1032(%rbx)
	cmpq	$1023, %rax
	jb	.LBB33_384
	movq	%rbx, %rdi
	callq	"std_io::io::buffer::Buffer::flush"
	movb	$1, %cl
	testb	%al, %al
	je	.LBB33_5
	movq	1032(%rbx), %rdx
	cmpq	$1023, %rdx
	ja	.LBB33_5
.LBB33_384:
	movb	$99, 4(%rbx,%rdx)
	leaq	1(%rdx), %rax
	movq	%rax, 1032(%rbx)
	cmpq	$1023, %rdx
	jb	.LBB33_387
	movq	%rbx, %rdi
	callq	"std_io::io::buffer::Buffer::flush"
	movb	$1, %cl
	testb	%al, %al
	je	.LBB33_5
	movq	1032(%rbx), %rax
	cmpq	$1023, %rax
	ja	.LBB33_5
.LBB33_387:
	movb	$104, 4(%rbx,%rax)
	leaq	1(%rax), %rdx
	movq	%rdx, 1032(%rbx)
	cmpq	$1023, %rax
	jb	.LBB33_390
	movq	%rbx, %rdi
	callq	"std_io::io::buffer::Buffer::flush"
	movb	$1, %cl
	testb	%al, %al
	je	.LBB33_5
	movq	1032(%rbx), %rdx
	cmpq	$1023, %rdx
	ja	.LBB33_5
.LBB33_390:
	movb	$97, 4(%rbx,%rdx)
	leaq	1(%rdx), %rax
	movq	%rax, 1032(%rbx)
	cmpq	$1023, %rdx
	jb	.LBB33_393
	movq	%rbx, %rdi
	callq	"std_io::io::buffer::Buffer::flush"
	movb	$1, %cl
	testb	%al, %al
	je	.LBB33_5
	movq	1032(%rbx), %rax
	cmpq	$1023, %rax
	ja	.LBB33_5
.LBB33_393:
	movb	$98, 4(%rbx,%rax)
	leaq	1(%rax), %rdx
	movq	%rdx, 1032(%rbx)
	cmpq	$1023, %rax
	jb	.LBB33_396
	movq	%rbx, %rdi
	callq	"std_io::io::buffer::Buffer::flush"
	movb	$1, %cl
	testb	%al, %al
	je	.LBB33_5
	movq	1032(%rbx), %rdx
	cmpq	$1023, %rdx
	ja	.LBB33_5
.LBB33_396:
	movb	$108, 4(%rbx,%rdx)
	leaq	1(%rdx), %rax
	movq	%rax, 1032(%rbx)
	cmpq	$1023, %rdx
	jb	.LBB33_1234
	movq	%rbx, %rdi
	callq	"std_io::io::buffer::Buffer::flush"
	movb	$1, %cl
	testb	%al, %al
	je	.LBB33_5
	movq	1032(%rbx), %rax
	cmpq	$1023, %rax
	ja	.LBB33_5
	jmp	.LBB33_1234
.LBB33_400:
	testq	%rax, %rax
	jne	.LBB33_1653
	movq	1032(%rbx), %rdx
	cmpq	$1024, %rdx
	jb	.LBB33_404
	movq	%rbx, %rdi
	callq	"std_io::io::buffer::Buffer::flush"
	testb	%al, %al
	je	.LBB33_110
	movq	1032(%rbx), %rdx
	movb	$1, %cl
	cmpq	$1023, %rdx
	ja	.LBB33_5
.LBB33_404:
	movb	$111, 4(%rbx,%rdx)
	leaq	1(%rdx), %rax
	movq	%rax, 1032(%rbx)
	cmpq	$1023, %rdx
	jne	.LBB33_407
	movq	%rbx, %rdi
	callq	"std_io::io::buffer::Buffer::flush"
	testb	%al, %al
	je	.LBB33_110
	movq	1032(%rbx), %rax
	movb	$1, %cl
	cmpq	$1023, %rax
	ja	.LBB33_5
.LBB33_407:
	movb	$116, 4(%rbx,%rax)
	leaq	1(%rax), %rdx
	movq	%rdx, 1032(%rbx)
	cmpq	$1023, %rax
	jb	.LBB33_410
	movq	%rbx, %rdi
	callq	"std_io::io::buffer::Buffer::flush"
	testb	%al, %al
	je	.LBB33_110
	movq	1032(%rbx), %rdx
	movb	$1, %cl
	cmpq	$1023, %rdx
	ja	.LBB33_5
.LBB33_410:
	movb	$104, 4(%rbx,%rdx)
	leaq	1(%rdx), %rax
	movq	%rax, 1032(%rbx)
	cmpq	$1023, %rdx
	jb	.LBB33_413
	movq	%rbx, %rdi
	callq	"std_io::io::buffer::Buffer::flush"
	testb	%al, %al
	je	.LBB33_110
	movq	1032(%rbx), %rax
	movb	$1, %cl
	cmpq	$1023, %rax
	ja	.LBB33_5
.LBB33_413:
	movb	$101, 4(%rbx,%rax)
	leaq	1(%rax), %rdx
	movq	%rdx, 1032(%rbx)
	cmpq	$1023, %rax
	jb	.LBB33_416
	movq	%rbx, %rdi
	callq	"std_io::io::buffer::Buffer::flush"
	testb	%al, %al
	je	.LBB33_110
	movq	1032(%rbx), %rdx
	movb	$1, %cl
	cmpq	$1023, %rdx
	ja	.LBB33_5
.LBB33_416:
	movb	$114, 4(%rbx,%rdx)
	leaq	1(%rdx), %rax
	movq	%rax, 1032(%rbx)
	cmpq	$1023, %rdx
	jb	.LBB33_419
	movq	%rbx, %rdi
	callq	"std_io::io::buffer::Buffer::flush"
	testb	%al, %al
	je	.LBB33_110
	movq	1032(%rbx), %rax
	movb	$1, %cl
	cmpq	$1023, %rax
	ja	.LBB33_5
.LBB33_419:
	movb	$32, 4(%rbx,%rax)
	leaq	1(%rax), %rdx
	movq	%rdx, 1032(%rbx)
	cmpq	$1023, %rax
	jb	.LBB33_422
	movq	%rbx, %rdi
	callq	"std_io::io::buffer::Buffer::flush"
	testb	%al, %al
	je	.LBB33_110
	movq	1032(%rbx), %rdx
	movb	$1, %cl
	cmpq	$1023, %rdx
	ja	.LBB33_5
.LBB33_422:
	movb	$101, 4(%rbx,%rdx)
	leaq	1(%rdx), %rax
	movq	%rax, 1032(%rbx)
	cmpq	$1023, %rdx
	jb	.LBB33_425
	movq	%rbx, %rdi
	callq	"std_io::io::buffer::Buffer::flush"
	testb	%al, %al
	je	.LBB33_110
	movq	1032(%rbx), %rax
	movb	$1, %cl
	cmpq	$1023, %rax
	ja	.LBB33_5
.LBB33_425:
	movb	$114, 4(%rbx,%rax)
	leaq	1(%rax), %rdx
	movq	%rdx, 1032(%rbx)
	cmpq	$1023, %rax
	jb	.LBB33_428
	movq	%rbx, %rdi
	callq	"std_io::io::buffer::Buffer::flush"
	testb	%al, %al
	je	.LBB33_110
	movq	1032(%rbx), %rdx
	movb	$1, %cl
	cmpq	$1023, %rdx
	ja	.LBB33_5
.LBB33_428:
	movb	$114, 4(%rbx,%rdx)
	leaq	1(%rdx), %rax
	movq	%rax, 1032(%rbx)
	cmpq	$1023, %rdx
	jb	.LBB33_431
	movq	%rbx, %rdi
	callq	"std_io::io::buffer::Buffer::flush"
	testb	%al, %al
	je	.LBB33_110
	movq	1032(%rbx), %rax
	movb	$1, %cl
	cmpq	$1023, %rax
	ja	.LBB33_5
.LBB33_431:
	movb	$111, 4(%rbx,%rax)
	leaq	1(%rax), %rdx
	movq	%rdx, 1032(%rbx)
	cmpq	$1023, %rax
	jb	.LBB33_434
	movq	%rbx, %rdi
	callq	"std_io::io::buffer::Buffer::flush"
	testb	%al, %al
	je	.LBB33_110
	movq	1032(%rbx), %rdx
	movb	$1, %cl
	cmpq	$1023, %rdx
	ja	.LBB33_5
.LBB33_434:
	movb	$114, 4(%rbx,%rdx)
	jmp	.LBB33_1552
.LBB33_435:
	testq	%rax, %rax
	jne	.LBB33_1654
	movq	1032(%rbx), %rdx
	cmpq	$1024, %rdx
	jb	.LBB33_439
	movq	%rbx, %rdi
	callq	"std_io::io::buffer::Buffer::flush"
	movb	$1, %cl
	testb	%al, %al
	je	.LBB33_5
	movq	1032(%rbx), %rdx
	cmpq	$1023, %rdx
	ja	.LBB33_5
.LBB33_439:
	movb	$101, 4(%rbx,%rdx)
	leaq	1(%rdx), %rax
	movq	%rax, 1032(%rbx)
	cmpq	$1023, %rdx
	jne	.LBB33_442
	movq	%rbx, %rdi
	callq	"std_io::io::buffer::Buffer::flush"
	movb	$1, %cl
	testb	%al, %al
	je	.LBB33_5
	movq	1032(%rbx), %rax
	cmpq	$1023, %rax
	ja	.LBB33_5
.LBB33_442:
	movb	$110, 4(%rbx,%rax)
	leaq	1(%rax), %rdx
	movq	%rdx, 1032(%rbx)
	cmpq	$1023, %rax
	jb	.LBB33_445
	movq	%rbx, %rdi
	callq	"std_io::io::buffer::Buffer::flush"
	movb	$1, %cl
	testb	%al, %al
	je	.LBB33_5
	movq	1032(%rbx), %rdx
	cmpq	$1023, %rdx
	ja	.LBB33_5
.LBB33_445:
	movb	$116, 4(%rbx,%rdx)
	leaq	1(%rdx), %rax
	movq	%rax, 1032(%rbx)
	cmpq	$1023, %rdx
	jb	.LBB33_448
	movq	%rbx, %rdi
	callq	"std_io::io::buffer::Buffer::flush"
	movb	$1, %cl
	testb	%al, %al
	je	.LBB33_5
	movq	1032(%rbx), %rax
	cmpq	$1023, %rax
	ja	.LBB33_5
.LBB33_448:
	movb	$105, 4(%rbx,%rax)
	leaq	1(%rax), %rdx
	movq	%rdx, 1032(%rbx)
	cmpq	$1023, %rax
	jb	.LBB33_451
	movq	%rbx, %rdi
	callq	"std_io::io::buffer::Buffer::flush"
	movb	$1, %cl
	testb	%al, %al
	je	.LBB33_5
	movq	1032(%rbx), %rdx
	cmpq	$1023, %rdx
	ja	.LBB33_5
.LBB33_451:
	movb	$116, 4(%rbx,%rdx)
	leaq	1(%rdx), %rax
	movq	%rax, 1032(%rbx)
	cmpq	$1023, %rdx
	jb	.LBB33_454
	movq	%rbx, %rdi
	callq	"std_io::io::buffer::Buffer::flush"
	movb	$1, %cl
	testb	%al, %al
	je	.LBB33_5
	movq	1032(%rbx), %rax
	cmpq	$1023, %rax
	ja	.LBB33_5
.LBB33_454:
	movb	$121, 4(%rbx,%rax)
	leaq	1(%rax), %rdx
	movq	%rdx, 1032(%rbx)
	cmpq	$1023, %rax
	jb	.LBB33_457
	movq	%rbx, %rdi
	callq	"std_io::io::buffer::Buffer::flush"
	movb	$1, %cl
	testb	%al, %al
	je	.LBB33_5
	movq	1032(%rbx), %rdx
	cmpq	$1023, %rdx
	ja	.LBB33_5
.LBB33_457:
	movb	$32, 4(%rbx,%rdx)
	leaq	1(%rdx), %rax
	movq	%rax, 1032(%rbx)
	cmpq	$1023, %rdx
	jb	.LBB33_460
	movq	%rbx, %rdi
	callq	"std_io::io::buffer::Buffer::flush"
	movb	$1, %cl
	testb	%al, %al
	je	.LBB33_5
	movq	1032(%rbx), %rax
	cmpq	$1023, %rax
	ja	.LBB33_5
.LBB33_460:
	movb	$97, 4(%rbx,%rax)
	leaq	1(%rax), %rdx
	movq	%rdx, 1032(%rbx)
	cmpq	$1023, %rax
	jb	.LBB33_463
	movq	%rbx, %rdi
	callq	"std_io::io::buffer::Buffer::flush"
	movb	$1, %cl
	testb	%al, %al
	je	.LBB33_5
	movq	1032(%rbx), %rdx
	cmpq	$1023, %rdx
	ja	.LBB33_5
.LBB33_463:
	movb	$108, 4(%rbx,%rdx)
	leaq	1(%rdx), %rax
	movq	%rax, 1032(%rbx)
	cmpq	$1023, %rdx
	jb	.LBB33_466
	movq	%rbx, %rdi
	callq	"std_io::io::buffer::Buffer::flush"
	movb	$1, %cl
	testb	%al, %al
	je	.LBB33_5
	movq	1032(%rbx), %rax
	cmpq	$1023, %rax
	ja	.LBB33_5
.LBB33_466:
	movb	$114, 4(%rbx,%rax)
	leaq	1(%rax), %rdx
	movq	%rdx, 1032(%rbx)
	cmpq	$1023, %rax
	jb	.LBB33_469
	movq	%rbx, %rdi
	callq	"std_io::io::buffer::Buffer::flush"
	movb	$1, %cl
	testb	%al, %al
	je	.LBB33_5
	movq	1032(%rbx), %rdx
	cmpq	$1023, %rdx
	ja	.LBB33_5
.LBB33_469:
	movb	$101, 4(%rbx,%rdx)
	leaq	1(%rdx), %rax
	movq	%rax, 1032(%rbx)
	cmpq	$1023, %rdx
	jb	.LBB33_472
	movq	%rbx, %rdi
	callq	"std_io::io::buffer::Buffer::flush"
	movb	$1, %cl
	testb	%al, %al
	je	.LBB33_5
	movq	1032(%rbx), %rax
	cmpq	$1023, %rax
	ja	.LBB33_5
.LBB33_472:
	movb	$97, 4(%rbx,%rax)
	leaq	1(%rax), %rdx
	movq	%rdx, 1032(%rbx)
	cmpq	$1023, %rax
	jb	.LBB33_475
	movq	%rbx, %rdi
	callq	"std_io::io::buffer::Buffer::flush"
	movb	$1, %cl
	testb	%al, %al
	je	.LBB33_5
	movq	1032(%rbx), %rdx
	cmpq	$1023, %rdx
	ja	.LBB33_5
.LBB33_475:
	movb	$100, 4(%rbx,%rdx)
	leaq	1(%rdx), %rax
	movq	%rax, 1032(%rbx)
	cmpq	$1023, %rdx
	jb	.LBB33_478
	movq	%rbx, %rdi
	callq	"std_io::io::buffer::Buffer::flush"
	movb	$1, %cl
	testb	%al, %al
	je	.LBB33_5
	movq	1032(%rbx), %rax
	cmpq	$1023, %rax
	ja	.LBB33_5
.LBB33_478:
	movb	$121, 4(%rbx,%rax)
	leaq	1(%rax), %rdx
	movq	%rdx, 1032(%rbx)
	cmpq	$1023, %rax
	jb	.LBB33_481
	movq	%rbx, %rdi
	callq	"std_io::io::buffer::Buffer::flush"
	movb	$1, %cl
	testb	%al, %al
	je	.LBB33_5
	movq	1032(%rbx), %rdx
	cmpq	$1023, %rdx
	ja	.LBB33_5
.LBB33_481:
	movb	$32, 4(%rbx,%rdx)
	leaq	1(%rdx), %rax
	movq	%rax, 1032(%rbx)
	cmpq	$1023, %rdx
	jb	.LBB33_484
	movq	%rbx, %rdi
	callq	"std_io::io::buffer::Buffer::flush"
	movb	$1, %cl
	testb	%al, %al
	je	.LBB33_5
	movq	1032(%rbx), %rax
	cmpq	$1023, %rax
	ja	.LBB33_5
.LBB33_484:
	movb	$101, 4(%rbx,%rax)
	leaq	1(%rax), %rdx
	movq	%rdx, 1032(%rbx)
	cmpq	$1023, %rax
	jb	.LBB33_487
	movq	%rbx, %rdi
	callq	"std_io::io::buffer::Buffer::flush"
	movb	$1, %cl
	testb	%al, %al
	je	.LBB33_5
	movq	1032(%rbx), %rdx
	cmpq	$1023, %rdx
	ja	.LBB33_5
.LBB33_487:
	movb	$120, 4(%rbx,%rdx)
	leaq	1(%rdx), %rax
	movq	%rax, 1032(%rbx)
	cmpq	$1023, %rdx
	jb	.LBB33_490
	movq	%rbx, %rdi
	callq	"std_io::io::buffer::Buffer::flush"
	movb	$1, %cl
	testb	%al, %al
	je	.LBB33_5
	movq	1032(%rbx), %rax
	cmpq	$1023, %rax
	ja	.LBB33_5
.LBB33_490:
	movb	$105, 4(%rbx,%rax)
	leaq	1(%rax), %rdx
	movq	%rdx, 1032(%rbx)
	cmpq	$1023, %rax
	jb	.LBB33_493
	movq	%rbx, %rdi
	callq	"std_io::io::buffer::Buffer::flush"
	movb	$1, %cl
	testb	%al, %al
	je	.LBB33_5
	movq	1032(%rbx), %rdx
	cmpq	$1023, %rdx
	ja	.LBB33_5
.LBB33_493:
	movb	$115, 4(%rbx,%rdx)
	leaq	1(%rdx), %rax
	movq	%rax, 1032(%rbx)
	cmpq	$1023, %rdx
	jb	.LBB33_496
	movq	%rbx, %rdi
	callq	"std_io::io::buffer::Buffer::flush"
	movb	$1, %cl
	testb	%al, %al
	je	.LBB33_5
	movq	1032(%rbx), %rax
	cmpq	$1023, %rax
	ja	.LBB33_5
.LBB33_496:
	movb	$116, 4(%rbx,%rax)
	leaq	1(%rax), %rdx
	movq	%rdx, 1032(%rbx)
	cmpq	$1023, %rax
	jb	.LBB33_499
	movq	%rbx, %rdi
	callq	"std_io::io::buffer::Buffer::flush"
	movb	$1, %cl
	testb	%al, %al
	je	.LBB33_5
	movq	1032(%rbx), %rdx
	cmpq	$1023, %rdx
	ja	.LBB33_5
.LBB33_499:
	movb	$115, 4(%rbx,%rdx)
	jmp	.LBB33_806
.LBB33_500:
	testq	%rax, %rax
	jne	.LBB33_1655
	movq	1032(%rbx), %rdx
	cmpq	$1024, %rdx
	jb	.LBB33_504
	movq	%rbx, %rdi
	callq	"std_io::io::buffer::Buffer::flush"
	movb	$1, %cl
	testb	%al, %al
	je	.LBB33_5
	movq	1032(%rbx), %rdx
	cmpq	$1023, %rdx
	ja	.LBB33_5
.LBB33_504:
	movb	$97, 4(%rbx,%rdx)
	leaq	1(%rdx), %rax
	movq	%rax, 1032(%rbx)
	cmpq	$1023, %rdx
	jne	.LBB33_507
	movq	%rbx, %rdi
	callq	"std_io::io::buffer::Buffer::flush"
	movb	$1, %cl
	testb	%al, %al
	je	.LBB33_5
	movq	1032(%rbx), %rax
	cmpq	$1023, %rax
	ja	.LBB33_5
.LBB33_507:
	movb	$100, 4(%rbx,%rax)
	leaq	1(%rax), %rdx
	movq	%rdx, 1032(%rbx)
	cmpq	$1023, %rax
	jb	.LBB33_510
	movq	%rbx, %rdi
	callq	"std_io::io::buffer::Buffer::flush"
	movb	$1, %cl
	testb	%al, %al
	je	.LBB33_5
	movq	1032(%rbx), %rdx
	cmpq	$1023, %rdx
	ja	.LBB33_5
.LBB33_510:
	movb	$100, 4(%rbx,%rdx)
	leaq	1(%rdx), %rax
	movq	%rax, 1032(%rbx)
	cmpq	$1023, %rdx
	jb	.LBB33_513
	movq	%rbx, %rdi
	callq	"std_io::io::buffer::Buffer::flush"
	movb	$1, %cl
	testb	%al, %al
	je	.LBB33_5
	movq	1032(%rbx), %rax
	cmpq	$1023, %rax
	ja	.LBB33_5
.LBB33_513:
	movb	$114, 4(%rbx,%rax)
	leaq	1(%rax), %rdx
	movq	%rdx, 1032(%rbx)
	cmpq	$1023, %rax
	jb	.LBB33_516
	movq	%rbx, %rdi
	callq	"std_io::io::buffer::Buffer::flush"
	movb	$1, %cl
	testb	%al, %al
	je	.LBB33_5
	movq	1032(%rbx), %rdx
	cmpq	$1023, %rdx
	ja	.LBB33_5
.LBB33_516:
	movb	$101, 4(%rbx,%rdx)
	leaq	1(%rdx), %rax
	movq	%rax, 1032(%rbx)
	cmpq	$1023, %rdx
	jb	.LBB33_519
	movq	%rbx, %rdi
	callq	"std_io::io::buffer::Buffer::flush"
	movb	$1, %cl
	testb	%al, %al
	je	.LBB33_5
	movq	1032(%rbx), %rax
	cmpq	$1023, %rax
	ja	.LBB33_5
.LBB33_519:
	movb	$115, 4(%rbx,%rax)
	leaq	1(%rax), %rdx
	movq	%rdx, 1032(%rbx)
	cmpq	$1023, %rax
	jb	.LBB33_522
	movq	%rbx, %rdi
	callq	"std_io::io::buffer::Buffer::flush"
	movb	$1, %cl
	testb	%al, %al
	je	.LBB33_5
	movq	1032(%rbx), %rdx
	cmpq	$1023, %rdx
	ja	.LBB33_5
.LBB33_522:
	movb	$115, 4(%rbx,%rdx)
	leaq	1(%rdx), %rax
	movq	%rax, 1032(%rbx)
	cmpq	$1023, %rdx
	jb	.LBB33_525
	movq	%rbx, %rdi
	callq	"std_io::io::buffer::Buffer::flush"
	movb	$1, %cl
	testb	%al, %al
	je	.LBB33_5
	movq	1032(%rbx), %rax
	cmpq	$1023, %rax
	ja	.LBB33_5
.LBB33_525:
	movb	$32, 4(%rbx,%rax)
	leaq	1(%rax), %rdx
	movq	%rdx, 1032(%rbx)
	cmpq	$1023, %rax
	jb	.LBB33_528
	movq	%rbx, %rdi
	callq	"std_io::io::buffer::Buffer::flush"
	movb	$1, %cl
	testb	%al, %al
	je	.LBB33_5
	movq	1032(%rbx), %rdx
	cmpq	$1023, %rdx
	ja	.LBB33_5
.LBB33_528:
	movb	$110, 4(%rbx,%rdx)
	leaq	1(%rdx), %rax
	movq	%rax, 1032(%rbx)
	cmpq	$1023, %rdx
	jb	.LBB33_531
	movq	%rbx, %rdi
	callq	"std_io::io::buffer::Buffer::flush"
	movb	$1, %cl
	testb	%al, %al
	je	.LBB33_5
	movq	1032(%rbx), %rax
	cmpq	$1023, %rax
	ja	.LBB33_5
.LBB33_531:
	movb	$111, 4(%rbx,%rax)
	leaq	1(%rax), %rdx
	movq	%rdx, 1032(%rbx)
	cmpq	$1023, %rax
	jb	.LBB33_534
	movq	%rbx, %rdi
	callq	"std_io::io::buffer::Buffer::flush"
	movb	$1, %cl
	testb	%al, %al
	je	.LBB33_5
	movq	1032(%rbx), %rdx
	cmpq	$1023, %rdx
	ja	.LBB33_5
.LBB33_534:
	movb	$116, 4(%rbx,%rdx)
	leaq	1(%rdx), %rax
	movq	%rax, 1032(%rbx)
	cmpq	$1023, %rdx
	jb	.LBB33_537
	movq	%rbx, %rdi
	callq	"std_io::io::buffer::Buffer::flush"
	movb	$1, %cl
	testb	%al, %al
	je	.LBB33_5
	movq	1032(%rbx), %rax
	cmpq	$1023, %rax
	ja	.LBB33_5
.LBB33_537:
	movb	$32, 4(%rbx,%rax)
	leaq	1(%rax), %rdx
	movq	%rdx, 1032(%rbx)
	cmpq	$1023, %rax
	jb	.LBB33_540
	movq	%rbx, %rdi
	callq	"std_io::io::buffer::Buffer::flush"
	movb	$1, %cl
	testb	%al, %al
	je	.LBB33_5
	movq	1032(%rbx), %rdx
	cmpq	$1023, %rdx
	ja	.LBB33_5
.LBB33_540:
	movb	$97, 4(%rbx,%rdx)
	leaq	1(%rdx), %rax
	movq	%rax, 1032(%rbx)
	cmpq	$1023, %rdx
	jb	.LBB33_543
	movq	%rbx, %rdi
	callq	"std_io::io::buffer::Buffer::flush"
	movb	$1, %cl
	testb	%al, %al
	je	.LBB33_5
	movq	1032(%rbx), %rax
	cmpq	$1023, %rax
	ja	.LBB33_5
.LBB33_543:
	movb	$118, 4(%rbx,%rax)
	leaq	1(%rax), %rdx
	movq	%rdx, 1032(%rbx)
	cmpq	$1023, %rax
	jb	.LBB33_546
	movq	%rbx, %rdi
	callq	"std_io::io::buffer::Buffer::flush"
	movb	$1, %cl
	testb	%al, %al
	je	.LBB33_5
	movq	1032(%rbx), %rdx
	cmpq	$1023, %rdx
	ja	.LBB33_5
.LBB33_546:
	movb	$97, 4(%rbx,%rdx)
	leaq	1(%rdx), %rax
	movq	%rax, 1032(%rbx)
	cmpq	$1023, %rdx
	jb	.LBB33_549
	movq	%rbx, %rdi
	callq	"std_io::io::buffer::Buffer::flush"
	movb	$1, %cl
	testb	%al, %al
	je	.LBB33_5
	movq	1032(%rbx), %rax
	cmpq	$1023, %rax
	ja	.LBB33_5
.LBB33_549:
	movb	$105, 4(%rbx,%rax)
	leaq	1(%rax), %rdx
	movq	%rdx, 1032(%rbx)
	cmpq	$1023, %rax
	jb	.LBB33_552
	movq	%rbx, %rdi
	callq	"std_io::io::buffer::Buffer::flush"
	movb	$1, %cl
	testb	%al, %al
	je	.LBB33_5
	movq	1032(%rbx), %rdx
	cmpq	$1023, %rdx
	ja	.LBB33_5
.LBB33_552:
	movb	$108, 4(%rbx,%rdx)
	leaq	1(%rdx), %rax
	movq	%rax, 1032(%rbx)
	cmpq	$1023, %rdx
	jb	.LBB33_555
	movq	%rbx, %rdi
	callq	"std_io::io::buffer::Buffer::flush"
	movb	$1, %cl
	testb	%al, %al
	je	.LBB33_5
	movq	1032(%rbx), %rax
	cmpq	$1023, %rax
	ja	.LBB33_5
.LBB33_555:
	movb	$97, 4(%rbx,%rax)
	leaq	1(%rax), %rdx
	movq	%rdx, 1032(%rbx)
	cmpq	$1023, %rax
	jb	.LBB33_558
	movq	%rbx, %rdi
	callq	"std_io::io::buffer::Buffer::flush"
	movb	$1, %cl
	testb	%al, %al
	je	.LBB33_5
	movq	1032(%rbx), %rdx
	cmpq	$1023, %rdx
	ja	.LBB33_5
.LBB33_558:
	movb	$98, 4(%rbx,%rdx)
	leaq	1(%rdx), %rax
	movq	%rax, 1032(%rbx)
	cmpq	$1023, %rdx
	jb	.LBB33_561
	movq	%rbx, %rdi
	callq	"std_io::io::buffer::Buffer::flush"
	movb	$1, %cl
	testb	%al, %al
	je	.LBB33_5
	movq	1032(%rbx), %rax
	cmpq	$1023, %rax
	ja	.LBB33_5
.LBB33_561:
	movb	$108, 4(%rbx,%rax)
	leaq	1(%rax), %rdx
	movq	%rdx, 1032(%rbx)
	cmpq	$1023, %rax
	jae	.LBB33_347
	jmp	.LBB33_349
.LBB33_562:
	testq	%rax, %rax
	jne	.LBB33_1656
	movq	1032(%rbx), %rax
	xorl	%r14d, %r14d
	jmp	.LBB33_565
	.p2align	4
.LBB33_564:
	movb	%bpl, 4(%rbx,%rax)
	incq	%rax
	movq	%rax, 1032(%rbx)
	incq	%r14
	xorl	%ecx, %ecx
	cmpq	$23, %r14
	je	.LBB33_5
.LBB33_565:
	leaq	.Lstatic.143(%rip), %rcx
	movzbl	(%r14,%rcx), %ebp
	cmpq	$1024, %rax
	jb	.LBB33_564
	movq	%rbx, %rdi
	callq	"std_io::io::buffer::Buffer::flush"
	movb	$1, %cl
	testb	%al, %al
	je	.LBB33_5
	movq	1032(%rbx), %rax
	cmpq	$1023, %rax
	jbe	.LBB33_564
	jmp	.LBB33_5
.LBB33_568:
	testq	%rax, %rax
	jne	.LBB33_1657
	movq	1032(%rbx), %rdx
	cmpq	$1024, %rdx
	jb	.LBB33_572
	movq	%rbx, %rdi
	callq	"std_io::io::buffer::Buffer::flush"
	testb	%al, %al
	je	.LBB33_153
	movq	1032(%rbx), %rdx
	movb	$1, %cl
	cmpq	$1023, %rdx
	ja	.LBB33_5
.LBB33_572:
	movb	$110, 4(%rbx,%rdx)
	leaq	1(%rdx), %rax
	movq	%rax, 1032(%rbx)
	cmpq	$1023, %rdx
	jne	.LBB33_575
	movq	%rbx, %rdi
	callq	"std_io::io::buffer::Buffer::flush"
	testb	%al, %al
	je	.LBB33_153
	movq	1032(%rbx), %rax
	movb	$1, %cl
	cmpq	$1023, %rax
	ja	.LBB33_5
.LBB33_575:
	movb	$111, 4(%rbx,%rax)
	leaq	1(%rax), %rdx
	movq	%rdx, 1032(%rbx)
	cmpq	$1023, %rax
	jb	.LBB33_578
	movq	%rbx, %rdi
	callq	"std_io::io::buffer::Buffer::flush"
	testb	%al, %al
	je	.LBB33_153
	movq	1032(%rbx), %rdx
	movb	$1, %cl
	cmpq	$1023, %rdx
	ja	.LBB33_5
.LBB33_578:
	movb	$32, 4(%rbx,%rdx)
	leaq	1(%rdx), %rax
	movq	%rax, 1032(%rbx)
	cmpq	$1023, %rdx
	jb	.LBB33_581
	movq	%rbx, %rdi
	callq	"std_io::io::buffer::Buffer::flush"
	testb	%al, %al
	je	.LBB33_153
	movq	1032(%rbx), %rax
	movb	$1, %cl
	cmpq	$1023, %rax
	ja	.LBB33_5
.LBB33_581:
	movb	$115, 4(%rbx,%rax)
	leaq	1(%rax), %rdx
	movq	%rdx, 1032(%rbx)
	cmpq	$1023, %rax
	jb	.LBB33_584
	movq	%rbx, %rdi
	callq	"std_io::io::buffer::Buffer::flush"
	testb	%al, %al
	je	.LBB33_153
	movq	1032(%rbx), %rdx
	movb	$1, %cl
	cmpq	$1023, %rdx
	ja	.LBB33_5
.LBB33_584:
	movb	$116, 4(%rbx,%rdx)
	leaq	1(%rdx), %rax
	movq	%rax, 1032(%rbx)
	cmpq	$1023, %rdx
	jb	.LBB33_587
	movq	%rbx, %rdi
	callq	"std_io::io::buffer::Buffer::flush"
	testb	%al, %al
	je	.LBB33_153
	movq	1032(%rbx), %rax
	movb	$1, %cl
	cmpq	$1023, %rax
	ja	.LBB33_5
.LBB33_587:
	movb	$111, 4(%rbx,%rax)
	leaq	1(%rax), %rdx
	movq	%rdx, 1032(%rbx)
	cmpq	$1023, %rax
	jb	.LBB33_590
	movq	%rbx, %rdi
	callq	"std_io::io::buffer::Buffer::flush"
	testb	%al, %al
	je	.LBB33_153
	movq	1032(%rbx), %rdx
	movb	$1, %cl
	cmpq	$1023, %rdx
	ja	.LBB33_5
.LBB33_590:
	movb	$114, 4(%rbx,%rdx)
	leaq	1(%rdx), %rax
	movq	%rax, 1032(%rbx)
	cmpq	$1023, %rdx
	jb	.LBB33_593
	movq	%rbx, %rdi
	callq	"std_io::io::buffer::Buffer::flush"
	testb	%al, %al
	je	.LBB33_153
	movq	1032(%rbx), %rax
	movb	$1, %cl
	cmpq	$1023, %rax
	ja	.LBB33_5
.LBB33_593:
	movb	$97, 4(%rbx,%rax)
	leaq	1(%rax), %rdx
	movq	%rdx, 1032(%rbx)
	cmpq	$1023, %rax
	jb	.LBB33_596
	movq	%rbx, %rdi
	callq	"std_io::io::buffer::Buffer::flush"
	testb	%al, %al
	je	.LBB33_153
	movq	1032(%rbx), %rdx
	movb	$1, %cl
	cmpq	$1023, %rdx
	ja	.LBB33_5
.LBB33_596:
	movb	$103, 4(%rbx,%rdx)
	leaq	1(%rdx), %rax
	movq	%rax, 1032(%rbx)
	cmpq	$1023, %rdx
	jb	.LBB33_599
	movq	%rbx, %rdi
	callq	"std_io::io::buffer::Buffer::flush"
	testb	%al, %al
	je	.LBB33_153
	movq	1032(%rbx), %rax
	movb	$1, %cl
	cmpq	$1023, %rax
	ja	.LBB33_5
.LBB33_599:
	movb	$101, 4(%rbx,%rax)
	leaq	1(%rax), %rdx
	movq	%rdx, 1032(%rbx)
	cmpq	$1023, %rax
	jb	.LBB33_602
	movq	%rbx, %rdi
	callq	"std_io::io::buffer::Buffer::flush"
	testb	%al, %al
	je	.LBB33_153
	movq	1032(%rbx), %rdx
	movb	$1, %cl
	cmpq	$1023, %rdx
	ja	.LBB33_5
.LBB33_602:
	movb	$32, 4(%rbx,%rdx)
	leaq	1(%rdx), %rax
	movq	%rax, 1032(%rbx)
	cmpq	$1023, %rdx
	jb	.LBB33_605
	movq	%rbx, %rdi
	callq	"std_io::io::buffer::Buffer::flush"
	testb	%al, %al
	je	.LBB33_153
	movq	1032(%rbx), %rax
	movb	$1, %cl
	cmpq	$1023, %rax
	ja	.LBB33_5
.LBB33_605:
	movb	$115, 4(%rbx,%rax)
	leaq	1(%rax), %rdx
	movq	%rdx, 1032(%rbx)
	cmpq	$1023, %rax
	jb	.LBB33_608
	movq	%rbx, %rdi
	callq	"std_io::io::buffer::Buffer::flush"
	testb	%al, %al
	je	.LBB33_153
	movq	1032(%rbx), %rdx
	movb	$1, %cl
	cmpq	$1023, %rdx
	ja	.LBB33_5
.LBB33_608:
	movb	$112, 4(%rbx,%rdx)
	leaq	1(%rdx), %rax
	movq	%rax, 1032(%rbx)
	cmpq	$1023, %rdx
	jb	.LBB33_611
	movq	%rbx, %rdi
	callq	"std_io::io::buffer::Buffer::flush"
	testb	%al, %al
	je	.LBB33_153
	movq	1032(%rbx), %rax
	movb	$1, %cl
	cmpq	$1023, %rax
	ja	.LBB33_5
.LBB33_611:
	movb	$97, 4(%rbx,%rax)
	leaq	1(%rax), %rdx
	movq	%rdx, 1032(%rbx)
	cmpq	$1023, %rax
	jb	.LBB33_614
	movq	%rbx, %rdi
	callq	"std_io::io::buffer::Buffer::flush"
	testb	%al, %al
	je	.LBB33_153
	movq	1032(%rbx), %rdx
	movb	$1, %cl
	cmpq	$1023, %rdx
	ja	.LBB33_5
.LBB33_614:
	movb	$99, 4(%rbx,%rdx)
	leaq	1(%rdx), %rax
	movq	%rax, 1032(%rbx)
	cmpq	$1023, %rdx
	jb	.LBB33_1234
	movq	%rbx, %rdi
	callq	"std_io::io::buffer::Buffer::flush"
	testb	%al, %al
	je	.LBB33_153
.LBB33_616:
	movq	1032(%rbx), %rax
	movb	$1, %cl
	cmpq	$1023, %rax
	ja	.LBB33_5
	jmp	.LBB33_1234
.LBB33_618:
	testq	%rax, %rax
	jne	.LBB33_1658
	movq	1032(%rbx), %rdx
	cmpq	$1024, %rdx
	jb	.LBB33_622
	movq	%rbx, %rdi
	callq	"std_io::io::buffer::Buffer::flush"
	movb	$1, %cl
	testb	%al, %al
	je	.LBB33_5
	movq	1032(%rbx), %rdx
	cmpq	$1023, %rdx
	ja	.LBB33_5
.LBB33_622:
	movb	$99, 4(%rbx,%rdx)
	leaq	1(%rdx), %rax
	movq	%rax, 1032(%rbx)
	cmpq	$1023, %rdx
	jne	.LBB33_625
	movq	%rbx, %rdi
	callq	"std_io::io::buffer::Buffer::flush"
	movb	$1, %cl
	testb	%al, %al
	je	.LBB33_5
	movq	1032(%rbx), %rax
	cmpq	$1023, %rax
	ja	.LBB33_5
.LBB33_625:
	movb	$111, 4(%rbx,%rax)
	leaq	1(%rax), %rdx
	movq	%rdx, 1032(%rbx)
	cmpq	$1023, %rax
	jb	.LBB33_628
	movq	%rbx, %rdi
	callq	"std_io::io::buffer::Buffer::flush"
	movb	$1, %cl
	testb	%al, %al
	je	.LBB33_5
	movq	1032(%rbx), %rdx
	cmpq	$1023, %rdx
	ja	.LBB33_5
.LBB33_628:
	movb	$110, 4(%rbx,%rdx)
	leaq	1(%rdx), %rax
	movq	%rax, 1032(%rbx)
	cmpq	$1023, %rdx
	jb	.LBB33_631
	movq	%rbx, %rdi
	callq	"std_io::io::buffer::Buffer::flush"
	movb	$1, %cl
	testb	%al, %al
	je	.LBB33_5
	movq	1032(%rbx), %rax
	cmpq	$1023, %rax
	ja	.LBB33_5
.LBB33_631:
	movb	$110, 4(%rbx,%rax)
	leaq	1(%rax), %rdx
	movq	%rdx, 1032(%rbx)
	cmpq	$1023, %rax
	jb	.LBB33_634
	movq	%rbx, %rdi
	callq	"std_io::io::buffer::Buffer::flush"
	movb	$1, %cl
	testb	%al, %al
	je	.LBB33_5
	movq	1032(%rbx), %rdx
	cmpq	$1023, %rdx
	ja	.LBB33_5
.LBB33_634:
	movb	$101, 4(%rbx,%rdx)
	leaq	1(%rdx), %rax
	movq	%rax, 1032(%rbx)
	cmpq	$1023, %rdx
	jb	.LBB33_637
	movq	%rbx, %rdi
	callq	"std_io::io::buffer::Buffer::flush"
	movb	$1, %cl
	testb	%al, %al
	je	.LBB33_5
	movq	1032(%rbx), %rax
	cmpq	$1023, %rax
	ja	.LBB33_5
.LBB33_637:
	movb	$99, 4(%rbx,%rax)
	leaq	1(%rax), %rdx
	movq	%rdx, 1032(%rbx)
	cmpq	$1023, %rax
	jb	.LBB33_640
	movq	%rbx, %rdi
	callq	"std_io::io::buffer::Buffer::flush"
	movb	$1, %cl
	testb	%al, %al
	je	.LBB33_5
	movq	1032(%rbx), %rdx
	cmpq	$1023, %rdx
	ja	.LBB33_5
.LBB33_640:
	movb	$116, 4(%rbx,%rdx)
	leaq	1(%rdx), %rax
	movq	%rax, 1032(%rbx)
	cmpq	$1023, %rdx
	jb	.LBB33_643
	movq	%rbx, %rdi
	callq	"std_io::io::buffer::Buffer::flush"
	movb	$1, %cl
	testb	%al, %al
	je	.LBB33_5
	movq	1032(%rbx), %rax
	cmpq	$1023, %rax
	ja	.LBB33_5
.LBB33_643:
	movb	$105, 4(%rbx,%rax)
	leaq	1(%rax), %rdx
	movq	%rdx, 1032(%rbx)
	cmpq	$1023, %rax
	jb	.LBB33_646
	movq	%rbx, %rdi
	callq	"std_io::io::buffer::Buffer::flush"
	movb	$1, %cl
	testb	%al, %al
	je	.LBB33_5
	movq	1032(%rbx), %rdx
	cmpq	$1023, %rdx
	ja	.LBB33_5
.LBB33_646:
	movb	$111, 4(%rbx,%rdx)
	leaq	1(%rdx), %rax
	movq	%rax, 1032(%rbx)
	cmpq	$1023, %rdx
	jb	.LBB33_649
	movq	%rbx, %rdi
	callq	"std_io::io::buffer::Buffer::flush"
	movb	$1, %cl
	testb	%al, %al
	je	.LBB33_5
	movq	1032(%rbx), %rax
	cmpq	$1023, %rax
	ja	.LBB33_5
.LBB33_649:
	movb	$110, 4(%rbx,%rax)
	leaq	1(%rax), %rdx
	movq	%rdx, 1032(%rbx)
	cmpq	$1023, %rax
	jb	.LBB33_652
	movq	%rbx, %rdi
	callq	"std_io::io::buffer::Buffer::flush"
	movb	$1, %cl
	testb	%al, %al
	je	.LBB33_5
	movq	1032(%rbx), %rdx
	cmpq	$1023, %rdx
	ja	.LBB33_5
.LBB33_652:
	movb	$32, 4(%rbx,%rdx)
	leaq	1(%rdx), %rax
	movq	%rax, 1032(%rbx)
	cmpq	$1023, %rdx
	jb	.LBB33_655
	movq	%rbx, %rdi
	callq	"std_io::io::buffer::Buffer::flush"
	movb	$1, %cl
	testb	%al, %al
	je	.LBB33_5
	movq	1032(%rbx), %rax
	cmpq	$1023, %rax
	ja	.LBB33_5
.LBB33_655:
	movb	$114, 4(%rbx,%rax)
	leaq	1(%rax), %rdx
	movq	%rdx, 1032(%rbx)
	cmpq	$1023, %rax
	jb	.LBB33_658
	movq	%rbx, %rdi
	callq	"std_io::io::buffer::Buffer::flush"
	movb	$1, %cl
	testb	%al, %al
	je	.LBB33_5
	movq	1032(%rbx), %rdx
	cmpq	$1023, %rdx
	ja	.LBB33_5
.LBB33_658:
	movb	$101, 4(%rbx,%rdx)
	leaq	1(%rdx), %rax
	movq	%rax, 1032(%rbx)
	cmpq	$1023, %rdx
	jb	.LBB33_661
	movq	%rbx, %rdi
	callq	"std_io::io::buffer::Buffer::flush"
	movb	$1, %cl
	testb	%al, %al
	je	.LBB33_5
	movq	1032(%rbx), %rax
	cmpq	$1023, %rax
	ja	.LBB33_5
.LBB33_661:
	movb	$102, 4(%rbx,%rax)
	leaq	1(%rax), %rdx
	movq	%rdx, 1032(%rbx)
	cmpq	$1023, %rax
	jb	.LBB33_664
	movq	%rbx, %rdi
	callq	"std_io::io::buffer::Buffer::flush"
	movb	$1, %cl
	testb	%al, %al
	je	.LBB33_5
	movq	1032(%rbx), %rdx
	cmpq	$1023, %rdx
	ja	.LBB33_5
.LBB33_664:
	movb	$117, 4(%rbx,%rdx)
	leaq	1(%rdx), %rax
	movq	%rax, 1032(%rbx)
	cmpq	$1023, %rdx
	jb	.LBB33_667
	movq	%rbx, %rdi
	callq	"std_io::io::buffer::Buffer::flush"
	movb	$1, %cl
	testb	%al, %al
	je	.LBB33_5
	movq	1032(%rbx), %rax
	cmpq	$1023, %rax
	ja	.LBB33_5
.LBB33_667:
	movb	$115, 4(%rbx,%rax)
	leaq	1(%rax), %rdx
	movq	%rdx, 1032(%rbx)
	cmpq	$1023, %rax
	jb	.LBB33_670
	movq	%rbx, %rdi
	callq	"std_io::io::buffer::Buffer::flush"
	movb	$1, %cl
	testb	%al, %al
	je	.LBB33_5
	movq	1032(%rbx), %rdx
	cmpq	$1023, %rdx
	ja	.LBB33_5
	jmp	.LBB33_670
.LBB33_671:
	testq	%rax, %rax
	jne	.LBB33_1659
	movq	1032(%rbx), %rdx
	cmpq	$1024, %rdx
	jb	.LBB33_675
	movq	%rbx, %rdi
	callq	"std_io::io::buffer::Buffer::flush"
	movb	$1, %cl
	testb	%al, %al
	je	.LBB33_5
	movq	1032(%rbx), %rdx
	cmpq	$1023, %rdx
	ja	.LBB33_5
.LBB33_675:
	movb	$105, 4(%rbx,%rdx)
	leaq	1(%rdx), %rax
	movq	%rax, 1032(%rbx)
	cmpq	$1023, %rdx
	jne	.LBB33_678
	movq	%rbx, %rdi
	callq	"std_io::io::buffer::Buffer::flush"
	testb	%al, %al
	je	.LBB33_217
	movq	1032(%rbx), %rax
	movb	$1, %cl
	cmpq	$1023, %rax
	ja	.LBB33_5
.LBB33_678:
	movb	$115, 4(%rbx,%rax)
	leaq	1(%rax), %rdx
	movq	%rdx, 1032(%rbx)
	cmpq	$1023, %rax
	jb	.LBB33_681
	movq	%rbx, %rdi
	callq	"std_io::io::buffer::Buffer::flush"
	testb	%al, %al
	je	.LBB33_217
	movq	1032(%rbx), %rdx
	movb	$1, %cl
	cmpq	$1023, %rdx
	ja	.LBB33_5
.LBB33_681:
	movb	$32, 4(%rbx,%rdx)
	leaq	1(%rdx), %rax
	movq	%rax, 1032(%rbx)
	cmpq	$1023, %rdx
	jb	.LBB33_684
	movq	%rbx, %rdi
	callq	"std_io::io::buffer::Buffer::flush"
	testb	%al, %al
	je	.LBB33_217
	movq	1032(%rbx), %rax
	movb	$1, %cl
	cmpq	$1023, %rax
	ja	.LBB33_5
.LBB33_684:
	movb	$97, 4(%rbx,%rax)
	leaq	1(%rax), %rdx
	movq	%rdx, 1032(%rbx)
	cmpq	$1023, %rax
	jb	.LBB33_687
	movq	%rbx, %rdi
	callq	"std_io::io::buffer::Buffer::flush"
	testb	%al, %al
	je	.LBB33_217
	movq	1032(%rbx), %rdx
	movb	$1, %cl
	cmpq	$1023, %rdx
	ja	.LBB33_5
.LBB33_687:
	movb	$32, 4(%rbx,%rdx)
	leaq	1(%rdx), %rax
	movq	%rax, 1032(%rbx)
	cmpq	$1023, %rdx
	jb	.LBB33_690
	movq	%rbx, %rdi
	callq	"std_io::io::buffer::Buffer::flush"
	testb	%al, %al
	je	.LBB33_217
	movq	1032(%rbx), %rax
	movb	$1, %cl
	cmpq	$1023, %rax
	ja	.LBB33_5
.LBB33_690:
	movb	$100, 4(%rbx,%rax)
	leaq	1(%rax), %rdx
	movq	%rdx, 1032(%rbx)
	cmpq	$1023, %rax
	jb	.LBB33_693
	movq	%rbx, %rdi
	callq	"std_io::io::buffer::Buffer::flush"
	testb	%al, %al
	je	.LBB33_217
	movq	1032(%rbx), %rdx
	movb	$1, %cl
	cmpq	$1023, %rdx
	ja	.LBB33_5
.LBB33_693:
	movb	$105, 4(%rbx,%rdx)
	leaq	1(%rdx), %rax
	movq	%rax, 1032(%rbx)
	cmpq	$1023, %rdx
	jb	.LBB33_696
	movq	%rbx, %rdi
	callq	"std_io::io::buffer::Buffer::flush"
	testb	%al, %al
	je	.LBB33_217
	movq	1032(%rbx), %rax
	movb	$1, %cl
	cmpq	$1023, %rax
	ja	.LBB33_5
.LBB33_696:
	movb	$114, 4(%rbx,%rax)
	leaq	1(%rax), %rdx
	movq	%rdx, 1032(%rbx)
	cmpq	$1023, %rax
	jb	.LBB33_699
	movq	%rbx, %rdi
	callq	"std_io::io::buffer::Buffer::flush"
	testb	%al, %al
	je	.LBB33_217
	movq	1032(%rbx), %rdx
	movb	$1, %cl
	cmpq	$1023, %rdx
	ja	.LBB33_5
.LBB33_699:
	movb	$101, 4(%rbx,%rdx)
	leaq	1(%rdx), %rax
	movq	%rax, 1032(%rbx)
	cmpq	$1023, %rdx
	jb	.LBB33_702
	movq	%rbx, %rdi
	callq	"std_io::io::buffer::Buffer::flush"
	testb	%al, %al
	je	.LBB33_217
	movq	1032(%rbx), %rax
	movb	$1, %cl
	cmpq	$1023, %rax
	ja	.LBB33_5
.LBB33_702:
	movb	$99, 4(%rbx,%rax)
	leaq	1(%rax), %rdx
	movq	%rdx, 1032(%rbx)
	cmpq	$1023, %rax
	jb	.LBB33_705
	movq	%rbx, %rdi
	callq	"std_io::io::buffer::Buffer::flush"
	testb	%al, %al
	je	.LBB33_217
	movq	1032(%rbx), %rdx
	movb	$1, %cl
	cmpq	$1023, %rdx
	ja	.LBB33_5
.LBB33_705:
	movb	$116, 4(%rbx,%rdx)
	leaq	1(%rdx), %rax
	movq	%rax, 1032(%rbx)
	cmpq	$1023, %rdx
	jb	.LBB33_708
	movq	%rbx, %rdi
	callq	"std_io::io::buffer::Buffer::flush"
	testb	%al, %al
	je	.LBB33_217
	movq	1032(%rbx), %rax
	movb	$1, %cl
	cmpq	$1023, %rax
	ja	.LBB33_5
.LBB33_708:
	movb	$111, 4(%rbx,%rax)
	leaq	1(%rax), %rdx
	movq	%rdx, 1032(%rbx)
	cmpq	$1023, %rax
	jb	.LBB33_711
	movq	%rbx, %rdi
	callq	"std_io::io::buffer::Buffer::flush"
	testb	%al, %al
	je	.LBB33_217
	movq	1032(%rbx), %rdx
	movb	$1, %cl
	cmpq	$1023, %rdx
	ja	.LBB33_5
.LBB33_711:
	movb	$114, 4(%rbx,%rdx)
	leaq	1(%rdx), %rax
	movq	%rax, 1032(%rbx)
	cmpq	$1023, %rdx
	jb	.LBB33_714
	movq	%rbx, %rdi
	callq	"std_io::io::buffer::Buffer::flush"
	testb	%al, %al
	je	.LBB33_217
	movq	1032(%rbx), %rax
	movb	$1, %cl
	cmpq	$1023, %rax
	ja	.LBB33_5
.LBB33_714:
	movb	$121, 4(%rbx,%rax)
	jmp	.LBB33_1235
.LBB33_715:
	testq	%rax, %rax
	jne	.LBB33_1660
	movq	1032(%rbx), %rdx
	cmpq	$1024, %rdx
	jb	.LBB33_719
	movq	%rbx, %rdi
	callq	"std_io::io::buffer::Buffer::flush"
	movb	$1, %cl
	testb	%al, %al
	je	.LBB33_5
	movq	1032(%rbx), %rdx
	cmpq	$1023, %rdx
	ja	.LBB33_5
.LBB33_719:
	movb	$99, 4(%rbx,%rdx)
	leaq	1(%rdx), %rax
	movq	%rax, 1032(%rbx)
	cmpq	$1023, %rdx
	jne	.LBB33_722
	movq	%rbx, %rdi
	callq	"std_io::io::buffer::Buffer::flush"
	movb	$1, %cl
	testb	%al, %al
	je	.LBB33_5
	movq	1032(%rbx), %rax
	cmpq	$1023, %rax
	ja	.LBB33_5
.LBB33_722:
	movb	$111, 4(%rbx,%rax)
	leaq	1(%rax), %rdx
	movq	%rdx, 1032(%rbx)
	cmpq	$1023, %rax
	jb	.LBB33_725
	movq	%rbx, %rdi
	callq	"std_io::io::buffer::Buffer::flush"
	movb	$1, %cl
	testb	%al, %al
	je	.LBB33_5
	movq	1032(%rbx), %rdx
	cmpq	$1023, %rdx
	ja	.LBB33_5
.LBB33_725:
	movb	$110, 4(%rbx,%rdx)
	leaq	1(%rdx), %rax
	movq	%rax, 1032(%rbx)
	cmpq	$1023, %rdx
	jb	.LBB33_728
	movq	%rbx, %rdi
	callq	"std_io::io::buffer::Buffer::flush"
	movb	$1, %cl
	testb	%al, %al
	je	.LBB33_5
	movq	1032(%rbx), %rax
	cmpq	$1023, %rax
	ja	.LBB33_5
.LBB33_728:
	movb	$110, 4(%rbx,%rax)
	leaq	1(%rax), %rdx
	movq	%rdx, 1032(%rbx)
	cmpq	$1023, %rax
	jb	.LBB33_731
	movq	%rbx, %rdi
	callq	"std_io::io::buffer::Buffer::flush"
	movb	$1, %cl
	testb	%al, %al
	je	.LBB33_5
	movq	1032(%rbx), %rdx
	cmpq	$1023, %rdx
	ja	.LBB33_5
.LBB33_731:
	movb	$101, 4(%rbx,%rdx)
	leaq	1(%rdx), %rax
	movq	%rax, 1032(%rbx)
	cmpq	$1023, %rdx
	jb	.LBB33_734
	movq	%rbx, %rdi
	callq	"std_io::io::buffer::Buffer::flush"
	movb	$1, %cl
	testb	%al, %al
	je	.LBB33_5
	movq	1032(%rbx), %rax
	cmpq	$1023, %rax
	ja	.LBB33_5
.LBB33_734:
	movb	$99, 4(%rbx,%rax)
	leaq	1(%rax), %rdx
	movq	%rdx, 1032(%rbx)
	cmpq	$1023, %rax
	jb	.LBB33_737
	movq	%rbx, %rdi
	callq	"std_io::io::buffer::Buffer::flush"
	movb	$1, %cl
	testb	%al, %al
	je	.LBB33_5
	movq	1032(%rbx), %rdx
	cmpq	$1023, %rdx
	ja	.LBB33_5
.LBB33_737:
	movb	$116, 4(%rbx,%rdx)
	leaq	1(%rdx), %rax
	movq	%rax, 1032(%rbx)
	cmpq	$1023, %rdx
	jb	.LBB33_740
	movq	%rbx, %rdi
	callq	"std_io::io::buffer::Buffer::flush"
	movb	$1, %cl
	testb	%al, %al
	je	.LBB33_5
	movq	1032(%rbx), %rax
	cmpq	$1023, %rax
	ja	.LBB33_5
.LBB33_740:
	movb	$105, 4(%rbx,%rax)
	leaq	1(%rax), %rdx
	movq	%rdx, 1032(%rbx)
	cmpq	$1023, %rax
	jb	.LBB33_743
	movq	%rbx, %rdi
	callq	"std_io::io::buffer::Buffer::flush"
	movb	$1, %cl
	testb	%al, %al
	je	.LBB33_5
	movq	1032(%rbx), %rdx
	cmpq	$1023, %rdx
	ja	.LBB33_5
.LBB33_743:
	movb	$111, 4(%rbx,%rdx)
	leaq	1(%rdx), %rax
	movq	%rax, 1032(%rbx)
	cmpq	$1023, %rdx
	jb	.LBB33_746
	movq	%rbx, %rdi
	callq	"std_io::io::buffer::Buffer::flush"
	movb	$1, %cl
	testb	%al, %al
	je	.LBB33_5
	movq	1032(%rbx), %rax
	cmpq	$1023, %rax
	ja	.LBB33_5
.LBB33_746:
	movb	$110, 4(%rbx,%rax)
	leaq	1(%rax), %rdx
	movq	%rdx, 1032(%rbx)
	cmpq	$1023, %rax
	jb	.LBB33_749
	movq	%rbx, %rdi
	callq	"std_io::io::buffer::Buffer::flush"
	movb	$1, %cl
	testb	%al, %al
	je	.LBB33_5
	movq	1032(%rbx), %rdx
	cmpq	$1023, %rdx
	ja	.LBB33_5
.LBB33_749:
	movb	$32, 4(%rbx,%rdx)
	leaq	1(%rdx), %rax
	movq	%rax, 1032(%rbx)
	cmpq	$1023, %rdx
	jb	.LBB33_752
	movq	%rbx, %rdi
	callq	"std_io::io::buffer::Buffer::flush"
	movb	$1, %cl
	testb	%al, %al
	je	.LBB33_5
	movq	1032(%rbx), %rax
	cmpq	$1023, %rax
	ja	.LBB33_5
.LBB33_752:
	movb	$114, 4(%rbx,%rax)
	leaq	1(%rax), %rdx
	movq	%rdx, 1032(%rbx)
	cmpq	$1023, %rax
	jb	.LBB33_755
	movq	%rbx, %rdi
	callq	"std_io::io::buffer::Buffer::flush"
	movb	$1, %cl
	testb	%al, %al
	je	.LBB33_5
	movq	1032(%rbx), %rdx
	cmpq	$1023, %rdx
	ja	.LBB33_5
.LBB33_755:
	movb	$101, 4(%rbx,%rdx)
	leaq	1(%rdx), %rax
	movq	%rax, 1032(%rbx)
	cmpq	$1023, %rdx
	jb	.LBB33_758
	movq	%rbx, %rdi
	callq	"std_io::io::buffer::Buffer::flush"
	movb	$1, %cl
	testb	%al, %al
	je	.LBB33_5
	movq	1032(%rbx), %rax
	cmpq	$1023, %rax
	ja	.LBB33_5
.LBB33_758:
	movb	$115, 4(%rbx,%rax)
	leaq	1(%rax), %rdx
	movq	%rdx, 1032(%rbx)
	cmpq	$1023, %rax
	jb	.LBB33_761
	movq	%rbx, %rdi
	callq	"std_io::io::buffer::Buffer::flush"
	movb	$1, %cl
	testb	%al, %al
	je	.LBB33_5
	movq	1032(%rbx), %rdx
	cmpq	$1023, %rdx
	ja	.LBB33_5
.LBB33_761:
	movb	$101, 4(%rbx,%rdx)
	leaq	1(%rdx), %rax
	movq	%rax, 1032(%rbx)
	cmpq	$1023, %rdx
	jb	.LBB33_764
	movq	%rbx, %rdi
	callq	"std_io::io::buffer::Buffer::flush"
	movb	$1, %cl
	testb	%al, %al
	je	.LBB33_5
	movq	1032(%rbx), %rax
	cmpq	$1023, %rax
	ja	.LBB33_5
.LBB33_764:
	movb	$116, 4(%rbx,%rax)
	jmp	.LBB33_1235
.LBB33_765:
	testq	%rax, %rax
	jne	.LBB33_1661
	movq	1032(%rbx), %rdx
	cmpq	$1024, %rdx
	jb	.LBB33_769
	movq	%rbx, %rdi
	callq	"std_io::io::buffer::Buffer::flush"
	movb	$1, %cl
	testb	%al, %al
	je	.LBB33_5
	movq	1032(%rbx), %rdx
	cmpq	$1023, %rdx
	ja	.LBB33_5
.LBB33_769:
	movb	$110, 4(%rbx,%rdx)
	leaq	1(%rdx), %rax
	movq	%rax, 1032(%rbx)
	cmpq	$1023, %rdx
	jne	.LBB33_772
	movq	%rbx, %rdi
	callq	"std_io::io::buffer::Buffer::flush"
	movb	$1, %cl
	testb	%al, %al
	je	.LBB33_5
	movq	1032(%rbx), %rax
	cmpq	$1023, %rax
	ja	.LBB33_5
.LBB33_772:
	movb	$111, 4(%rbx,%rax)
	leaq	1(%rax), %rdx
	movq	%rdx, 1032(%rbx)
	cmpq	$1023, %rax
	jb	.LBB33_775
	movq	%rbx, %rdi
	callq	"std_io::io::buffer::Buffer::flush"
	movb	$1, %cl
	testb	%al, %al
	je	.LBB33_5
	movq	1032(%rbx), %rdx
	cmpq	$1023, %rdx
	ja	.LBB33_5
.LBB33_775:
	movb	$116, 4(%rbx,%rdx)
	leaq	1(%rdx), %rax
	movq	%rax, 1032(%rbx)
	cmpq	$1023, %rdx
	jb	.LBB33_778
	movq	%rbx, %rdi
	callq	"std_io::io::buffer::Buffer::flush"
	movb	$1, %cl
	testb	%al, %al
	je	.LBB33_5
	movq	1032(%rbx), %rax
	cmpq	$1023, %rax
	ja	.LBB33_5
.LBB33_778:
	movb	$32, 4(%rbx,%rax)
	leaq	1(%rax), %rdx
	movq	%rdx, 1032(%rbx)
	cmpq	$1023, %rax
	jb	.LBB33_781
	movq	%rbx, %rdi
	callq	"std_io::io::buffer::Buffer::flush"
	movb	$1, %cl
	testb	%al, %al
	je	.LBB33_5
	movq	1032(%rbx), %rdx
	cmpq	$1023, %rdx
	ja	.LBB33_5
.LBB33_781:
	movb	$99, 4(%rbx,%rdx)
	leaq	1(%rdx), %rax
	movq	%rax, 1032(%rbx)
	cmpq	$1023, %rdx
	jb	.LBB33_784
	movq	%rbx, %rdi
	callq	"std_io::io::buffer::Buffer::flush"
	movb	$1, %cl
	testb	%al, %al
	je	.LBB33_5
	movq	1032(%rbx), %rax
	cmpq	$1023, %rax
	ja	.LBB33_5
.LBB33_784:
	movb	$111, 4(%rbx,%rax)
	leaq	1(%rax), %rdx
	movq	%rdx, 1032(%rbx)
	cmpq	$1023, %rax
	jb	.LBB33_787
	movq	%rbx, %rdi
	callq	"std_io::io::buffer::Buffer::flush"
	movb	$1, %cl
	testb	%al, %al
	je	.LBB33_5
	movq	1032(%rbx), %rdx
	cmpq	$1023, %rdx
	ja	.LBB33_5
.LBB33_787:
	movb	$110, 4(%rbx,%rdx)
	leaq	1(%rdx), %rax
	movq	%rax, 1032(%rbx)
	cmpq	$1023, %rdx
	jb	.LBB33_790
	movq	%rbx, %rdi
	callq	"std_io::io::buffer::Buffer::flush"
	movb	$1, %cl
	testb	%al, %al
	je	.LBB33_5
	movq	1032(%rbx), %rax
	cmpq	$1023, %rax
	ja	.LBB33_5
.LBB33_790:
	movb	$110, 4(%rbx,%rax)
	leaq	1(%rax), %rdx
	movq	%rdx, 1032(%rbx)
	cmpq	$1023, %rax
	jb	.LBB33_793
	movq	%rbx, %rdi
	callq	"std_io::io::buffer::Buffer::flush"
	movb	$1, %cl
	testb	%al, %al
	je	.LBB33_5
	movq	1032(%rbx), %rdx
	cmpq	$1023, %rdx
	ja	.LBB33_5
.LBB33_793:
	movb	$101, 4(%rbx,%rdx)
	leaq	1(%rdx), %rax
	movq	%rax, 1032(%rbx)
	cmpq	$1023, %rdx
	jb	.LBB33_796
	movq	%rbx, %rdi
	callq	"std_io::io::buffer::Buffer::flush"
	movb	$1, %cl
	testb	%al, %al
	je	.LBB33_5
	movq	1032(%rbx), %rax
	cmpq	$1023, %rax
	ja	.LBB33_5
.LBB33_796:
	movb	$99, 4(%rbx,%rax)
	leaq	1(%rax), %rdx
	movq	%rdx, 1032(%rbx)
	cmpq	$1023, %rax
	jb	.LBB33_799
	movq	%rbx, %rdi
	callq	"std_io::io::buffer::Buffer::flush"
	movb	$1, %cl
	testb	%al, %al
	je	.LBB33_5
	movq	1032(%rbx), %rdx
	cmpq	$1023, %rdx
	ja	.LBB33_5
.LBB33_799:
	movb	$116, 4(%rbx,%rdx)
	leaq	1(%rdx), %rax
	movq	%rax, 1032(%rbx)
	cmpq	$1023, %rdx
	jb	.LBB33_802
	movq	%rbx, %rdi
	callq	"std_io::io::buffer::Buffer::flush"
	movb	$1, %cl
	testb	%al, %al
	je	.LBB33_5
	movq	1032(%rbx), %rax
	cmpq	$1023, %rax
	ja	.LBB33_5
.LBB33_802:
	movb	$101, 4(%rbx,%rax)
	leaq	1(%rax), %rdx
	movq	%rdx, 1032(%rbx)
	cmpq	$1023, %rax
	jb	.LBB33_805
	movq	%rbx, %rdi
	callq	"std_io::io::buffer::Buffer::flush"
	movb	$1, %cl
	testb	%al, %al
	je	.LBB33_5
	movq	1032(%rbx), %rdx
	cmpq	$1023, %rdx
	ja	.LBB33_5
	jmp	.LBB33_805
.LBB33_807:
	testq	%rax, %rax
	jne	.LBB33_1665
	movq	1032(%rbx), %rdx
	cmpq	$1024, %rdx
	jb	.LBB33_811
	movq	%rbx, %rdi
	callq	"std_io::io::buffer::Buffer::flush"
	movb	$1, %cl
	testb	%al, %al
	je	.LBB33_5
	movq	1032(%rbx), %rdx
	cmpq	$1023, %rdx
	ja	.LBB33_5
.LBB33_811:
	movb	$112, 4(%rbx,%rdx)
	leaq	1(%rdx), %rax
	movq	%rax, 1032(%rbx)
	cmpq	$1023, %rdx
	jne	.LBB33_814
	movq	%rbx, %rdi
	callq	"std_io::io::buffer::Buffer::flush"
	movb	$1, %cl
	testb	%al, %al
	je	.LBB33_5
	movq	1032(%rbx), %rax
	cmpq	$1023, %rax
	ja	.LBB33_5
.LBB33_814:
	movb	$101, 4(%rbx,%rax)
	leaq	1(%rax), %rdx
	movq	%rdx, 1032(%rbx)
	cmpq	$1023, %rax
	jb	.LBB33_817
	movq	%rbx, %rdi
	callq	"std_io::io::buffer::Buffer::flush"
	movb	$1, %cl
	testb	%al, %al
	je	.LBB33_5
	movq	1032(%rbx), %rdx
	cmpq	$1023, %rdx
	ja	.LBB33_5
.LBB33_817:
	movb	$114, 4(%rbx,%rdx)
	leaq	1(%rdx), %rax
	movq	%rax, 1032(%rbx)
	cmpq	$1023, %rdx
	jb	.LBB33_820
	movq	%rbx, %rdi
	callq	"std_io::io::buffer::Buffer::flush"
	movb	$1, %cl
	testb	%al, %al
	je	.LBB33_5
	movq	1032(%rbx), %rax
	cmpq	$1023, %rax
	ja	.LBB33_5
.LBB33_820:
	movb	$109, 4(%rbx,%rax)
	leaq	1(%rax), %rdx
	movq	%rdx, 1032(%rbx)
	cmpq	$1023, %rax
	jb	.LBB33_823
	movq	%rbx, %rdi
	callq	"std_io::io::buffer::Buffer::flush"
	movb	$1, %cl
	testb	%al, %al
	je	.LBB33_5
	movq	1032(%rbx), %rdx
	cmpq	$1023, %rdx
	ja	.LBB33_5
.LBB33_823:
	movb	$105, 4(%rbx,%rdx)
	leaq	1(%rdx), %rax
	movq	%rax, 1032(%rbx)
	cmpq	$1023, %rdx
	jb	.LBB33_826
	movq	%rbx, %rdi
	callq	"std_io::io::buffer::Buffer::flush"
	movb	$1, %cl
	testb	%al, %al
	je	.LBB33_5
	movq	1032(%rbx), %rax
	cmpq	$1023, %rax
	ja	.LBB33_5
.LBB33_826:
	movb	$115, 4(%rbx,%rax)
	leaq	1(%rax), %rdx
	movq	%rdx, 1032(%rbx)
	cmpq	$1023, %rax
	jb	.LBB33_829
	movq	%rbx, %rdi
	callq	"std_io::io::buffer::Buffer::flush"
	movb	$1, %cl
	testb	%al, %al
	je	.LBB33_5
	movq	1032(%rbx), %rdx
	cmpq	$1023, %rdx
	ja	.LBB33_5
.LBB33_829:
	movb	$115, 4(%rbx,%rdx)
	leaq	1(%rdx), %rax
	movq	%rax, 1032(%rbx)
	cmpq	$1023, %rdx
	jb	.LBB33_832
	movq	%rbx, %rdi
	callq	"std_io::io::buffer::Buffer::flush"
	movb	$1, %cl
	testb	%al, %al
	je	.LBB33_5
	movq	1032(%rbx), %rax
	cmpq	$1023, %rax
	ja	.LBB33_5
.LBB33_832:
	movb	$105, 4(%rbx,%rax)
	leaq	1(%rax), %rdx
	movq	%rdx, 1032(%rbx)
	cmpq	$1023, %rax
	jb	.LBB33_835
	movq	%rbx, %rdi
	callq	"std_io::io::buffer::Buffer::flush"
	movb	$1, %cl
	testb	%al, %al
	je	.LBB33_5
	movq	1032(%rbx), %rdx
	cmpq	$1023, %rdx
	ja	.LBB33_5
.LBB33_835:
	movb	$111, 4(%rbx,%rdx)
	leaq	1(%rdx), %rax
	movq	%rax, 1032(%rbx)
	cmpq	$1023, %rdx
	jb	.LBB33_838
	movq	%rbx, %rdi
	callq	"std_io::io::buffer::Buffer::flush"
	movb	$1, %cl
	testb	%al, %al
	je	.LBB33_5
	movq	1032(%rbx), %rax
	cmpq	$1023, %rax
	ja	.LBB33_5
.LBB33_838:
	movb	$110, 4(%rbx,%rax)
	leaq	1(%rax), %rdx
	movq	%rdx, 1032(%rbx)
	cmpq	$1023, %rax
	jb	.LBB33_841
	movq	%rbx, %rdi
	callq	"std_io::io::buffer::Buffer::flush"
	movb	$1, %cl
	testb	%al, %al
	je	.LBB33_5
	movq	1032(%rbx), %rdx
	cmpq	$1023, %rdx
	ja	.LBB33_5
.LBB33_841:
	movb	$32, 4(%rbx,%rdx)
	leaq	1(%rdx), %rax
	movq	%rax, 1032(%rbx)
	cmpq	$1023, %rdx
	jb	.LBB33_844
	movq	%rbx, %rdi
	callq	"std_io::io::buffer::Buffer::flush"
	movb	$1, %cl
	testb	%al, %al
	je	.LBB33_5
	movq	1032(%rbx), %rax
	cmpq	$1023, %rax
	ja	.LBB33_5
.LBB33_844:
	movb	$100, 4(%rbx,%rax)
	leaq	1(%rax), %rdx
	movq	%rdx, 1032(%rbx)
	cmpq	$1023, %rax
	jb	.LBB33_847
	movq	%rbx, %rdi
	callq	"std_io::io::buffer::Buffer::flush"
	movb	$1, %cl
	testb	%al, %al
	je	.LBB33_5
	movq	1032(%rbx), %rdx
	cmpq	$1023, %rdx
	ja	.LBB33_5
.LBB33_847:
	movb	$101, 4(%rbx,%rdx)
	leaq	1(%rdx), %rax
	movq	%rax, 1032(%rbx)
	cmpq	$1023, %rdx
	jb	.LBB33_850
	movq	%rbx, %rdi
	callq	"std_io::io::buffer::Buffer::flush"
	movb	$1, %cl
	testb	%al, %al
	je	.LBB33_5
	movq	1032(%rbx), %rax
	cmpq	$1023, %rax
	ja	.LBB33_5
.LBB33_850:
	movb	$110, 4(%rbx,%rax)
	leaq	1(%rax), %rdx
	movq	%rdx, 1032(%rbx)
	cmpq	$1023, %rax
	jb	.LBB33_853
	movq	%rbx, %rdi
	callq	"std_io::io::buffer::Buffer::flush"
	movb	$1, %cl
	testb	%al, %al
	je	.LBB33_5
	movq	1032(%rbx), %rdx
	cmpq	$1023, %rdx
	ja	.LBB33_5
.LBB33_853:
	movb	$105, 4(%rbx,%rdx)
	leaq	1(%rdx), %rax
	movq	%rax, 1032(%rbx)
	cmpq	$1023, %rdx
	jb	.LBB33_856
	movq	%rbx, %rdi
	callq	"std_io::io::buffer::Buffer::flush"
	movb	$1, %cl
	testb	%al, %al
	je	.LBB33_5
	movq	1032(%rbx), %rax
	cmpq	$1023, %rax
	ja	.LBB33_5
.LBB33_856:
	movb	$101, 4(%rbx,%rax)
	leaq	1(%rax), %rdx
	movq	%rdx, 1032(%rbx)
	cmpq	$1023, %rax
	jb	.LBB33_805
	movq	%rbx, %rdi
	callq	"std_io::io::buffer::Buffer::flush"
	movb	$1, %cl
	testb	%al, %al
	je	.LBB33_5
	movq	1032(%rbx), %rdx
	cmpq	$1023, %rdx
	ja	.LBB33_5
.LBB33_805:
	movb	$100, 4(%rbx,%rdx)
	jmp	.LBB33_806
.LBB33_860:
	testq	%rax, %rax
	jne	.LBB33_1666
	movq	1032(%rbx), %rax
	xorl	%r14d, %r14d
	jmp	.LBB33_863
	.p2align	4
.LBB33_862:
	movb	%bpl, 4(%rbx,%rax)
	incq	%rax
	movq	%rax, 1032(%rbx)
	incq	%r14
	xorl	%ecx, %ecx
	cmpq	$27, %r14
	je	.LBB33_5
.LBB33_863:
	leaq	.Lstatic.149(%rip), %rcx
	movzbl	(%r14,%rcx), %ebp
	cmpq	$1024, %rax
	jb	.LBB33_862
	movq	%rbx, %rdi
	callq	"std_io::io::buffer::Buffer::flush"
	movb	$1, %cl
	testb	%al, %al
	je	.LBB33_5
	movq	1032(%rbx), %rax
	cmpq	$1023, %rax
	jbe	.LBB33_862
	jmp	.LBB33_5
.LBB33_866:
	testq	%rax, %rax
	jne	.LBB33_1667
	movq	1032(%rbx), %rax
	xorl	%r14d, %r14d
	jmp	.LBB33_869
	.p2align	4
.LBB33_868:
	movb	%bpl, 4(%rbx,%rax)
	incq	%rax
	movq	%rax, 1032(%rbx)
	incq	%r14
	xorl	%ecx, %ecx
	cmpq	$38, %r14
	je	.LBB33_5
.LBB33_869:
	leaq	.Lstatic.135(%rip), %rcx
	movzbl	(%r14,%rcx), %ebp
	cmpq	$1024, %rax
	jb	.LBB33_868
	movq	%rbx, %rdi
	callq	"std_io::io::buffer::Buffer::flush"
	movb	$1, %cl
	testb	%al, %al
	je	.LBB33_5
	movq	1032(%rbx), %rax
	cmpq	$1023, %rax
	jbe	.LBB33_868
	jmp	.LBB33_5
.LBB33_872:
	testq	%rax, %rax
	jne	.LBB33_1668
	movq	1032(%rbx), %rdx
	cmpq	$1024, %rdx
	jb	.LBB33_876
	movq	%rbx, %rdi
	callq	"std_io::io::buffer::Buffer::flush"
	testb	%al, %al
	je	.LBB33_110
	movq	1032(%rbx), %rdx
	movb	$1, %cl
	cmpq	$1023, %rdx
	ja	.LBB33_5
.LBB33_876:
	movb	$117, 4(%rbx,%rdx)
	leaq	1(%rdx), %rax
	movq	%rax, 1032(%rbx)
	cmpq	$1023, %rdx
	jne	.LBB33_879
	movq	%rbx, %rdi
	callq	"std_io::io::buffer::Buffer::flush"
	testb	%al, %al
	je	.LBB33_110
	movq	1032(%rbx), %rax
	movb	$1, %cl
	cmpq	$1023, %rax
	ja	.LBB33_5
.LBB33_879:
	movb	$110, 4(%rbx,%rax)
	leaq	1(%rax), %rdx
	movq	%rdx, 1032(%rbx)
	cmpq	$1023, %rax
	jb	.LBB33_882
	movq	%rbx, %rdi
	callq	"std_io::io::buffer::Buffer::flush"
	testb	%al, %al
	je	.LBB33_110
	movq	1032(%rbx), %rdx
	movb	$1, %cl
	cmpq	$1023, %rdx
	ja	.LBB33_5
.LBB33_882:
	movb	$99, 4(%rbx,%rdx)
	leaq	1(%rdx), %rax
	movq	%rax, 1032(%rbx)
	cmpq	$1023, %rdx
	jb	.LBB33_885
	movq	%rbx, %rdi
	callq	"std_io::io::buffer::Buffer::flush"
	testb	%al, %al
	je	.LBB33_110
	movq	1032(%rbx), %rax
	movb	$1, %cl
	cmpq	$1023, %rax
	ja	.LBB33_5
.LBB33_885:
	movb	$97, 4(%rbx,%rax)
	leaq	1(%rax), %rdx
	movq	%rdx, 1032(%rbx)
	cmpq	$1023, %rax
	jb	.LBB33_888
	movq	%rbx, %rdi
	callq	"std_io::io::buffer::Buffer::flush"
	testb	%al, %al
	je	.LBB33_110
	movq	1032(%rbx), %rdx
	movb	$1, %cl
	cmpq	$1023, %rdx
	ja	.LBB33_5
.LBB33_888:
	movb	$116, 4(%rbx,%rdx)
	leaq	1(%rdx), %rax
	movq	%rax, 1032(%rbx)
	cmpq	$1023, %rdx
	jb	.LBB33_891
	movq	%rbx, %rdi
	callq	"std_io::io::buffer::Buffer::flush"
	testb	%al, %al
	je	.LBB33_110
	movq	1032(%rbx), %rax
	movb	$1, %cl
	cmpq	$1023, %rax
	ja	.LBB33_5
.LBB33_891:
	movb	$101, 4(%rbx,%rax)
	leaq	1(%rax), %rdx
	movq	%rdx, 1032(%rbx)
	cmpq	$1023, %rax
	jb	.LBB33_894
	movq	%rbx, %rdi
	callq	"std_io::io::buffer::Buffer::flush"
	testb	%al, %al
	je	.LBB33_110
	movq	1032(%rbx), %rdx
	movb	$1, %cl
	cmpq	$1023, %rdx
	ja	.LBB33_5
.LBB33_894:
	movb	$103, 4(%rbx,%rdx)
	leaq	1(%rdx), %rax
	movq	%rax, 1032(%rbx)
	cmpq	$1023, %rdx
	jb	.LBB33_897
	movq	%rbx, %rdi
	callq	"std_io::io::buffer::Buffer::flush"
	testb	%al, %al
	je	.LBB33_110
	movq	1032(%rbx), %rax
	movb	$1, %cl
	cmpq	$1023, %rax
	ja	.LBB33_5
.LBB33_897:
	movb	$111, 4(%rbx,%rax)
	leaq	1(%rax), %rdx
	movq	%rdx, 1032(%rbx)
	cmpq	$1023, %rax
	jb	.LBB33_900
	movq	%rbx, %rdi
	callq	"std_io::io::buffer::Buffer::flush"
	testb	%al, %al
	je	.LBB33_110
	movq	1032(%rbx), %rdx
	movb	$1, %cl
	cmpq	$1023, %rdx
	ja	.LBB33_5
.LBB33_900:
	movb	$114, 4(%rbx,%rdx)
	leaq	1(%rdx), %rax
	movq	%rax, 1032(%rbx)
	cmpq	$1023, %rdx
	jb	.LBB33_903
	movq	%rbx, %rdi
	callq	"std_io::io::buffer::Buffer::flush"
	testb	%al, %al
	je	.LBB33_110
	movq	1032(%rbx), %rax
	movb	$1, %cl
	cmpq	$1023, %rax
	ja	.LBB33_5
.LBB33_903:
	movb	$105, 4(%rbx,%rax)
	leaq	1(%rax), %rdx
	movq	%rdx, 1032(%rbx)
	cmpq	$1023, %rax
	jb	.LBB33_906
	movq	%rbx, %rdi
	callq	"std_io::io::buffer::Buffer::flush"
	testb	%al, %al
	je	.LBB33_110
	movq	1032(%rbx), %rdx
	movb	$1, %cl
	cmpq	$1023, %rdx
	ja	.LBB33_5
.LBB33_906:
	movb	$122, 4(%rbx,%rdx)
	leaq	1(%rdx), %rax
	movq	%rax, 1032(%rbx)
	cmpq	$1023, %rdx
	jb	.LBB33_909
	movq	%rbx, %rdi
	callq	"std_io::io::buffer::Buffer::flush"
	testb	%al, %al
	je	.LBB33_110
	movq	1032(%rbx), %rax
	movb	$1, %cl
	cmpq	$1023, %rax
	ja	.LBB33_5
.LBB33_909:
	movb	$101, 4(%rbx,%rax)
	leaq	1(%rax), %rdx
	movq	%rdx, 1032(%rbx)
	cmpq	$1023, %rax
	jb	.LBB33_912
	movq	%rbx, %rdi
	callq	"std_io::io::buffer::Buffer::flush"
	testb	%al, %al
	je	.LBB33_110
	movq	1032(%rbx), %rdx
	movb	$1, %cl
	cmpq	$1023, %rdx
	ja	.LBB33_5
.LBB33_912:
	movb	$100, 4(%rbx,%rdx)
	leaq	1(%rdx), %rax
	movq	%rax, 1032(%rbx)
	cmpq	$1023, %rdx
	jb	.LBB33_915
	movq	%rbx, %rdi
	callq	"std_io::io::buffer::Buffer::flush"
	testb	%al, %al
	je	.LBB33_110
	movq	1032(%rbx), %rax
	movb	$1, %cl
	cmpq	$1023, %rax
	ja	.LBB33_5
.LBB33_915:
	movb	$32, 4(%rbx,%rax)
	leaq	1(%rax), %rdx
	movq	%rdx, 1032(%rbx)
	cmpq	$1023, %rax
	jb	.LBB33_918
	movq	%rbx, %rdi
	callq	"std_io::io::buffer::Buffer::flush"
	testb	%al, %al
	je	.LBB33_110
	movq	1032(%rbx), %rdx
	movb	$1, %cl
	cmpq	$1023, %rdx
	ja	.LBB33_5
.LBB33_918:
	movb	$101, 4(%rbx,%rdx)
	leaq	1(%rdx), %rax
	movq	%rax, 1032(%rbx)
	cmpq	$1023, %rdx
	jb	.LBB33_921
	movq	%rbx, %rdi
	callq	"std_io::io::buffer::Buffer::flush"
	testb	%al, %al
	je	.LBB33_110
	movq	1032(%rbx), %rax
	movb	$1, %cl
	cmpq	$1023, %rax
	ja	.LBB33_5
.LBB33_921:
	movb	$114, 4(%rbx,%rax)
	leaq	1(%rax), %rdx
	movq	%rdx, 1032(%rbx)
	cmpq	$1023, %rax
	jb	.LBB33_924
	movq	%rbx, %rdi
	callq	"std_io::io::buffer::Buffer::flush"
	testb	%al, %al
	je	.LBB33_110
	movq	1032(%rbx), %rdx
	movb	$1, %cl
	cmpq	$1023, %rdx
	ja	.LBB33_5
.LBB33_924:
	movb	$114, 4(%rbx,%rdx)
	leaq	1(%rdx), %rax
	movq	%rax, 1032(%rbx)
	cmpq	$1023, %rdx
	jb	.LBB33_431
	movq	%rbx, %rdi
	callq	"std_io::io::buffer::Buffer::flush"
	testb	%al, %al
	je	.LBB33_110
	movq	1032(%rbx), %rax
	movb	$1, %cl
	cmpq	$1023, %rax
	ja	.LBB33_5
	jmp	.LBB33_431
.LBB33_927:
	testq	%rax, %rax
	jne	.LBB33_1669
	movq	1032(%rbx), %rax
	xorl	%r14d, %r14d
	jmp	.LBB33_930
	.p2align	4
.LBB33_929:
	movb	%bpl, 4(%rbx,%rax)
	incq	%rax
	movq	%rax, 1032(%rbx)
	incq	%r14
	xorl	%ecx, %ecx
	cmpq	$23, %r14
	je	.LBB33_5
.LBB33_930:
	leaq	.Lstatic.138(%rip), %rcx
	movzbl	(%r14,%rcx), %ebp
	cmpq	$1024, %rax
	jb	.LBB33_929
	movq	%rbx, %rdi
	callq	"std_io::io::buffer::Buffer::flush"
	movb	$1, %cl
	testb	%al, %al
	je	.LBB33_5
	movq	1032(%rbx), %rax
	cmpq	$1023, %rax
	jbe	.LBB33_929
	jmp	.LBB33_5
.LBB33_933:
	testq	%rax, %rax
	jne	.LBB33_1670
	movq	1032(%rbx), %rdx
	cmpq	$1024, %rdx
	jb	.LBB33_937
	movq	%rbx, %rdi
	callq	"std_io::io::buffer::Buffer::flush"
	movb	$1, %cl
	testb	%al, %al
	je	.LBB33_5
	movq	1032(%rbx), %rdx
	cmpq	$1023, %rdx
	ja	.LBB33_5
.LBB33_937:
	movb	$110, 4(%rbx,%rdx)
	leaq	1(%rdx), %rax
	movq	%rax, 1032(%rbx)
	cmpq	$1023, %rdx
	jne	.LBB33_940
	movq	%rbx, %rdi
	callq	"std_io::io::buffer::Buffer::flush"
	movb	$1, %cl
	testb	%al, %al
	je	.LBB33_5
	movq	1032(%rbx), %rax
	cmpq	$1023, %rax
	ja	.LBB33_5
.LBB33_940:
	movb	$101, 4(%rbx,%rax)
	leaq	1(%rax), %rdx
	movq	%rdx, 1032(%rbx)
	cmpq	$1023, %rax
	jb	.LBB33_943
	movq	%rbx, %rdi
	callq	"std_io::io::buffer::Buffer::flush"
	movb	$1, %cl
	testb	%al, %al
	je	.LBB33_5
	movq	1032(%rbx), %rdx
	cmpq	$1023, %rdx
	ja	.LBB33_5
.LBB33_943:
	movb	$116, 4(%rbx,%rdx)
	leaq	1(%rdx), %rax
	movq	%rax, 1032(%rbx)
	cmpq	$1023, %rdx
	jb	.LBB33_946
	movq	%rbx, %rdi
	callq	"std_io::io::buffer::Buffer::flush"
	movb	$1, %cl
	testb	%al, %al
	je	.LBB33_5
	movq	1032(%rbx), %rax
	cmpq	$1023, %rax
	ja	.LBB33_5
.LBB33_946:
	movb	$119, 4(%rbx,%rax)
	leaq	1(%rax), %rdx
	movq	%rdx, 1032(%rbx)
	cmpq	$1023, %rax
	jb	.LBB33_949
	movq	%rbx, %rdi
	callq	"std_io::io::buffer::Buffer::flush"
	movb	$1, %cl
	testb	%al, %al
	je	.LBB33_5
	movq	1032(%rbx), %rdx
	cmpq	$1023, %rdx
	ja	.LBB33_5
.LBB33_949:
	movb	$111, 4(%rbx,%rdx)
	leaq	1(%rdx), %rax
	movq	%rax, 1032(%rbx)
	cmpq	$1023, %rdx
	jb	.LBB33_952
	movq	%rbx, %rdi
	callq	"std_io::io::buffer::Buffer::flush"
	movb	$1, %cl
	testb	%al, %al
	je	.LBB33_5
	movq	1032(%rbx), %rax
	cmpq	$1023, %rax
	ja	.LBB33_5
.LBB33_952:
	movb	$114, 4(%rbx,%rax)
	leaq	1(%rax), %rdx
	movq	%rdx, 1032(%rbx)
	cmpq	$1023, %rax
	jb	.LBB33_955
	movq	%rbx, %rdi
	callq	"std_io::io::buffer::Buffer::flush"
	movb	$1, %cl
	testb	%al, %al
	je	.LBB33_5
	movq	1032(%rbx), %rdx
	cmpq	$1023, %rdx
	ja	.LBB33_5
.LBB33_955:
	movb	$107, 4(%rbx,%rdx)
	leaq	1(%rdx), %rax
	movq	%rax, 1032(%rbx)
	cmpq	$1023, %rdx
	jb	.LBB33_958
	movq	%rbx, %rdi
	callq	"std_io::io::buffer::Buffer::flush"
	movb	$1, %cl
	testb	%al, %al
	je	.LBB33_5
	movq	1032(%rbx), %rax
	cmpq	$1023, %rax
	ja	.LBB33_5
.LBB33_958:
	movb	$32, 4(%rbx,%rax)
	leaq	1(%rax), %rdx
	movq	%rdx, 1032(%rbx)
	cmpq	$1023, %rax
	jb	.LBB33_961
	movq	%rbx, %rdi
	callq	"std_io::io::buffer::Buffer::flush"
	movb	$1, %cl
	testb	%al, %al
	je	.LBB33_5
	movq	1032(%rbx), %rdx
	cmpq	$1023, %rdx
	ja	.LBB33_5
.LBB33_961:
	movb	$117, 4(%rbx,%rdx)
	leaq	1(%rdx), %rax
	movq	%rax, 1032(%rbx)
	cmpq	$1023, %rdx
	jb	.LBB33_964
	movq	%rbx, %rdi
	callq	"std_io::io::buffer::Buffer::flush"
	movb	$1, %cl
	testb	%al, %al
	je	.LBB33_5
	movq	1032(%rbx), %rax
	cmpq	$1023, %rax
	ja	.LBB33_5
.LBB33_964:
	movb	$110, 4(%rbx,%rax)
	leaq	1(%rax), %rdx
	movq	%rdx, 1032(%rbx)
	cmpq	$1023, %rax
	jb	.LBB33_967
	movq	%rbx, %rdi
	callq	"std_io::io::buffer::Buffer::flush"
	movb	$1, %cl
	testb	%al, %al
	je	.LBB33_5
	movq	1032(%rbx), %rdx
	cmpq	$1023, %rdx
	ja	.LBB33_5
.LBB33_967:
	movb	$114, 4(%rbx,%rdx)
	leaq	1(%rdx), %rax
	movq	%rax, 1032(%rbx)
	cmpq	$1023, %rdx
	jb	.LBB33_970
	movq	%rbx, %rdi
	callq	"std_io::io::buffer::Buffer::flush"
	movb	$1, %cl
	testb	%al, %al
	je	.LBB33_5
	movq	1032(%rbx), %rax
	cmpq	$1023, %rax
	ja	.LBB33_5
.LBB33_970:
	movb	$101, 4(%rbx,%rax)
	leaq	1(%rax), %rdx
	movq	%rdx, 1032(%rbx)
	cmpq	$1023, %rax
	jb	.LBB33_973
	movq	%rbx, %rdi
	callq	"std_io::io::buffer::Buffer::flush"
	movb	$1, %cl
	testb	%al, %al
	je	.LBB33_5
	movq	1032(%rbx), %rdx
	cmpq	$1023, %rdx
	ja	.LBB33_5
.LBB33_973:
	movb	$97, 4(%rbx,%rdx)
	leaq	1(%rdx), %rax
	movq	%rax, 1032(%rbx)
	cmpq	$1023, %rdx
	jb	.LBB33_976
	movq	%rbx, %rdi
	callq	"std_io::io::buffer::Buffer::flush"
	movb	$1, %cl
	testb	%al, %al
	je	.LBB33_5
	movq	1032(%rbx), %rax
	cmpq	$1023, %rax
	ja	.LBB33_5
.LBB33_976:
	movb	$99, 4(%rbx,%rax)
	leaq	1(%rax), %rdx
	movq	%rdx, 1032(%rbx)
	cmpq	$1023, %rax
	jb	.LBB33_979
	movq	%rbx, %rdi
	callq	"std_io::io::buffer::Buffer::flush"
	movb	$1, %cl
	testb	%al, %al
	je	.LBB33_5
	movq	1032(%rbx), %rdx
	cmpq	$1023, %rdx
	ja	.LBB33_5
.LBB33_979:
	movb	$104, 4(%rbx,%rdx)
	leaq	1(%rdx), %rax
	movq	%rax, 1032(%rbx)
	cmpq	$1023, %rdx
	jb	.LBB33_982
	movq	%rbx, %rdi
	callq	"std_io::io::buffer::Buffer::flush"
	movb	$1, %cl
	testb	%al, %al
	je	.LBB33_5
	movq	1032(%rbx), %rax
	cmpq	$1023, %rax
	ja	.LBB33_5
.LBB33_982:
	movb	$97, 4(%rbx,%rax)
	leaq	1(%rax), %rdx
	movq	%rdx, 1032(%rbx)
	cmpq	$1023, %rax
	jb	.LBB33_985
	movq	%rbx, %rdi
	callq	"std_io::io::buffer::Buffer::flush"
	movb	$1, %cl
	testb	%al, %al
	je	.LBB33_5
	movq	1032(%rbx), %rdx
	cmpq	$1023, %rdx
	ja	.LBB33_5
.LBB33_985:
	movb	$98, 4(%rbx,%rdx)
	leaq	1(%rdx), %rax
	movq	%rax, 1032(%rbx)
	cmpq	$1023, %rdx
	jb	.LBB33_988
	movq	%rbx, %rdi
	callq	"std_io::io::buffer::Buffer::flush"
	movb	$1, %cl
	testb	%al, %al
	je	.LBB33_5
	movq	1032(%rbx), %rax
	cmpq	$1023, %rax
	ja	.LBB33_5
.LBB33_988:
	movb	$108, 4(%rbx,%rax)
	leaq	1(%rax), %rdx
	movq	%rdx, 1032(%rbx)
	cmpq	$1023, %rax
	jb	.LBB33_349
	movq	%rbx, %rdi
	callq	"std_io::io::buffer::Buffer::flush"
	movb	$1, %cl
	testb	%al, %al
	je	.LBB33_5
	movq	1032(%rbx), %rdx
	cmpq	$1023, %rdx
	ja	.LBB33_5
	jmp	.LBB33_349
.LBB33_992:
	testq	%rax, %rax
	jne	.LBB33_1671
	movq	1032(%rbx), %rdx
	cmpq	$1024, %rdx
	jb	.LBB33_996
	movq	%rbx, %rdi
	callq	"std_io::io::buffer::Buffer::flush"
	testb	%al, %al
	je	.LBB33_153
	movq	1032(%rbx), %rdx
	movb	$1, %cl
	cmpq	$1023, %rdx
	ja	.LBB33_5
.LBB33_996:
	movb	$105, 4(%rbx,%rdx)
	leaq	1(%rdx), %rax
	movq	%rax, 1032(%rbx)
	cmpq	$1023, %rdx
	jne	.LBB33_999
	movq	%rbx, %rdi
	callq	"std_io::io::buffer::Buffer::flush"
	testb	%al, %al
	je	.LBB33_153
	movq	1032(%rbx), %rax
	movb	$1, %cl
	cmpq	$1023, %rax
	ja	.LBB33_5
.LBB33_999:
	movb	$110, 4(%rbx,%rax)
	leaq	1(%rax), %rdx
	movq	%rdx, 1032(%rbx)
	cmpq	$1023, %rax
	jb	.LBB33_1002
	movq	%rbx, %rdi
	callq	"std_io::io::buffer::Buffer::flush"
	testb	%al, %al
	je	.LBB33_153
	movq	1032(%rbx), %rdx
	movb	$1, %cl
	cmpq	$1023, %rdx
	ja	.LBB33_5
.LBB33_1002:
	movb	$118, 4(%rbx,%rdx)
	leaq	1(%rdx), %rax
	movq	%rax, 1032(%rbx)
	cmpq	$1023, %rdx
	jb	.LBB33_1005
	movq	%rbx, %rdi
	callq	"std_io::io::buffer::Buffer::flush"
	testb	%al, %al
	je	.LBB33_153
	movq	1032(%rbx), %rax
	movb	$1, %cl
	cmpq	$1023, %rax
	ja	.LBB33_5
.LBB33_1005:
	movb	$97, 4(%rbx,%rax)
	leaq	1(%rax), %rdx
	movq	%rdx, 1032(%rbx)
	cmpq	$1023, %rax
	jb	.LBB33_1008
	movq	%rbx, %rdi
	callq	"std_io::io::buffer::Buffer::flush"
	testb	%al, %al
	je	.LBB33_153
	movq	1032(%rbx), %rdx
	movb	$1, %cl
	cmpq	$1023, %rdx
	ja	.LBB33_5
.LBB33_1008:
	movb	$108, 4(%rbx,%rdx)
	leaq	1(%rdx), %rax
	movq	%rax, 1032(%rbx)
	cmpq	$1023, %rdx
	jb	.LBB33_1011
	movq	%rbx, %rdi
	callq	"std_io::io::buffer::Buffer::flush"
	testb	%al, %al
	je	.LBB33_153
	movq	1032(%rbx), %rax
	movb	$1, %cl
	cmpq	$1023, %rax
	ja	.LBB33_5
.LBB33_1011:
	movb	$105, 4(%rbx,%rax)
	leaq	1(%rax), %rdx
	movq	%rdx, 1032(%rbx)
	cmpq	$1023, %rax
	jb	.LBB33_1014
	movq	%rbx, %rdi
	callq	"std_io::io::buffer::Buffer::flush"
	testb	%al, %al
	je	.LBB33_153
	movq	1032(%rbx), %rdx
	movb	$1, %cl
	cmpq	$1023, %rdx
	ja	.LBB33_5
.LBB33_1014:
	movb	$100, 4(%rbx,%rdx)
	leaq	1(%rdx), %rax
	movq	%rax, 1032(%rbx)
	cmpq	$1023, %rdx
	jb	.LBB33_1017
	movq	%rbx, %rdi
	callq	"std_io::io::buffer::Buffer::flush"
	testb	%al, %al
	je	.LBB33_153
	movq	1032(%rbx), %rax
	movb	$1, %cl
	cmpq	$1023, %rax
	ja	.LBB33_5
.LBB33_1017:
	movb	$32, 4(%rbx,%rax)
	leaq	1(%rax), %rdx
	movq	%rdx, 1032(%rbx)
	cmpq	$1023, %rax
	jb	.LBB33_1020
	movq	%rbx, %rdi
	callq	"std_io::io::buffer::Buffer::flush"
	testb	%al, %al
	je	.LBB33_153
	movq	1032(%rbx), %rdx
	movb	$1, %cl
	cmpq	$1023, %rdx
	ja	.LBB33_5
.LBB33_1020:
	movb	$100, 4(%rbx,%rdx)
	leaq	1(%rdx), %rax
	movq	%rax, 1032(%rbx)
	cmpq	$1023, %rdx
	jb	.LBB33_1023
	movq	%rbx, %rdi
	callq	"std_io::io::buffer::Buffer::flush"
	testb	%al, %al
	je	.LBB33_153
	movq	1032(%rbx), %rax
	movb	$1, %cl
	cmpq	$1023, %rax
	ja	.LBB33_5
.LBB33_1023:
	movb	$97, 4(%rbx,%rax)
	leaq	1(%rax), %rdx
	movq	%rdx, 1032(%rbx)
	cmpq	$1023, %rax
	jb	.LBB33_1026
	movq	%rbx, %rdi
	callq	"std_io::io::buffer::Buffer::flush"
	testb	%al, %al
	je	.LBB33_153
	movq	1032(%rbx), %rdx
	movb	$1, %cl
	cmpq	$1023, %rdx
	ja	.LBB33_5
.LBB33_1026:
	movb	$116, 4(%rbx,%rdx)
	leaq	1(%rdx), %rax
	movq	%rax, 1032(%rbx)
	cmpq	$1023, %rdx
	jb	.LBB33_1029
	movq	%rbx, %rdi
	callq	"std_io::io::buffer::Buffer::flush"
	testb	%al, %al
	je	.LBB33_153
	movq	1032(%rbx), %rax
	movb	$1, %cl
	cmpq	$1023, %rax
	ja	.LBB33_5
.LBB33_1029:
	movb	$97, 4(%rbx,%rax)
	jmp	.LBB33_1235
.LBB33_1030:
	testq	%rax, %rax
	jne	.LBB33_1672
	movq	1032(%rbx), %rdx
	cmpq	$1024, %rdx
	jb	.LBB33_1034
	movq	%rbx, %rdi
	callq	"std_io::io::buffer::Buffer::flush"
	movb	$1, %cl
	testb	%al, %al
	je	.LBB33_5
	movq	1032(%rbx), %rdx
	cmpq	$1023, %rdx
	ja	.LBB33_5
.LBB33_1034:
	movb	$111, 4(%rbx,%rdx)
	leaq	1(%rdx), %rax
	movq	%rax, 1032(%rbx)
	cmpq	$1023, %rdx
	jne	.LBB33_1037
	movq	%rbx, %rdi
	callq	"std_io::io::buffer::Buffer::flush"
	movb	$1, %cl
	testb	%al, %al
	je	.LBB33_5
	movq	1032(%rbx), %rax
	cmpq	$1023, %rax
	ja	.LBB33_5
.LBB33_1037:
	movb	$112, 4(%rbx,%rax)
	leaq	1(%rax), %rdx
	movq	%rdx, 1032(%rbx)
	cmpq	$1023, %rax
	jb	.LBB33_1040
	movq	%rbx, %rdi
	callq	"std_io::io::buffer::Buffer::flush"
	movb	$1, %cl
	testb	%al, %al
	je	.LBB33_5
	movq	1032(%rbx), %rdx
	cmpq	$1023, %rdx
	ja	.LBB33_5
.LBB33_1040:
	movb	$101, 4(%rbx,%rdx)
	leaq	1(%rdx), %rax
	movq	%rax, 1032(%rbx)
	cmpq	$1023, %rdx
	jb	.LBB33_1043
	movq	%rbx, %rdi
	callq	"std_io::io::buffer::Buffer::flush"
	movb	$1, %cl
	testb	%al, %al
	je	.LBB33_5
	movq	1032(%rbx), %rax
	cmpq	$1023, %rax
	ja	.LBB33_5
.LBB33_1043:
	movb	$114, 4(%rbx,%rax)
	leaq	1(%rax), %rdx
	movq	%rdx, 1032(%rbx)
	cmpq	$1023, %rax
	jb	.LBB33_1046
	movq	%rbx, %rdi
	callq	"std_io::io::buffer::Buffer::flush"
	movb	$1, %cl
	testb	%al, %al
	je	.LBB33_5
	movq	1032(%rbx), %rdx
	cmpq	$1023, %rdx
	ja	.LBB33_5
.LBB33_1046:
	movb	$97, 4(%rbx,%rdx)
	leaq	1(%rdx), %rax
	movq	%rax, 1032(%rbx)
	cmpq	$1023, %rdx
	jb	.LBB33_1049
	movq	%rbx, %rdi
	callq	"std_io::io::buffer::Buffer::flush"
	movb	$1, %cl
	testb	%al, %al
	je	.LBB33_5
	movq	1032(%rbx), %rax
	cmpq	$1023, %rax
	ja	.LBB33_5
.LBB33_1049:
	movb	$116, 4(%rbx,%rax)
	leaq	1(%rax), %rdx
	movq	%rdx, 1032(%rbx)
	cmpq	$1023, %rax
	jb	.LBB33_1052
	movq	%rbx, %rdi
	callq	"std_io::io::buffer::Buffer::flush"
	movb	$1, %cl
	testb	%al, %al
	je	.LBB33_5
	movq	1032(%rbx), %rdx
	cmpq	$1023, %rdx
	ja	.LBB33_5
.LBB33_1052:
	movb	$105, 4(%rbx,%rdx)
	leaq	1(%rdx), %rax
	movq	%rax, 1032(%rbx)
	cmpq	$1023, %rdx
	jb	.LBB33_1055
	movq	%rbx, %rdi
	callq	"std_io::io::buffer::Buffer::flush"
	movb	$1, %cl
	testb	%al, %al
	je	.LBB33_5
	movq	1032(%rbx), %rax
	cmpq	$1023, %rax
	ja	.LBB33_5
.LBB33_1055:
	movb	$111, 4(%rbx,%rax)
	leaq	1(%rax), %rdx
	movq	%rdx, 1032(%rbx)
	cmpq	$1023, %rax
	jb	.LBB33_1058
	movq	%rbx, %rdi
	callq	"std_io::io::buffer::Buffer::flush"
	movb	$1, %cl
	testb	%al, %al
	je	.LBB33_5
	movq	1032(%rbx), %rdx
	cmpq	$1023, %rdx
	ja	.LBB33_5
.LBB33_1058:
	movb	$110, 4(%rbx,%rdx)
	leaq	1(%rdx), %rax
	movq	%rax, 1032(%rbx)
	cmpq	$1023, %rdx
	jb	.LBB33_1061
	movq	%rbx, %rdi
	callq	"std_io::io::buffer::Buffer::flush"
	movb	$1, %cl
	testb	%al, %al
	je	.LBB33_5
	movq	1032(%rbx), %rax
	cmpq	$1023, %rax
	ja	.LBB33_5
.LBB33_1061:
	movb	$32, 4(%rbx,%rax)
	leaq	1(%rax), %rdx
	movq	%rdx, 1032(%rbx)
	cmpq	$1023, %rax
	jb	.LBB33_1064
	movq	%rbx, %rdi
	callq	"std_io::io::buffer::Buffer::flush"
	movb	$1, %cl
	testb	%al, %al
	je	.LBB33_5
	movq	1032(%rbx), %rdx
	cmpq	$1023, %rdx
	ja	.LBB33_5
.LBB33_1064:
	movb	$119, 4(%rbx,%rdx)
	leaq	1(%rdx), %rax
	movq	%rax, 1032(%rbx)
	cmpq	$1023, %rdx
	jb	.LBB33_1067
	movq	%rbx, %rdi
	callq	"std_io::io::buffer::Buffer::flush"
	movb	$1, %cl
	testb	%al, %al
	je	.LBB33_5
	movq	1032(%rbx), %rax
	cmpq	$1023, %rax
	ja	.LBB33_5
.LBB33_1067:
	movb	$111, 4(%rbx,%rax)
	leaq	1(%rax), %rdx
	movq	%rdx, 1032(%rbx)
	cmpq	$1023, %rax
	jb	.LBB33_1070
	movq	%rbx, %rdi
	callq	"std_io::io::buffer::Buffer::flush"
	movb	$1, %cl
	testb	%al, %al
	je	.LBB33_5
	movq	1032(%rbx), %rdx
	cmpq	$1023, %rdx
	ja	.LBB33_5
.LBB33_1070:
	movb	$117, 4(%rbx,%rdx)
	leaq	1(%rdx), %rax
	movq	%rax, 1032(%rbx)
	cmpq	$1023, %rdx
	jb	.LBB33_1073
	movq	%rbx, %rdi
	callq	"std_io::io::buffer::Buffer::flush"
	movb	$1, %cl
	testb	%al, %al
	je	.LBB33_5
	movq	1032(%rbx), %rax
	cmpq	$1023, %rax
	ja	.LBB33_5
.LBB33_1073:
	movb	$108, 4(%rbx,%rax)
	leaq	1(%rax), %rdx
	movq	%rdx, 1032(%rbx)
	cmpq	$1023, %rax
	jb	.LBB33_1076
	movq	%rbx, %rdi
	callq	"std_io::io::buffer::Buffer::flush"
	movb	$1, %cl
	testb	%al, %al
	je	.LBB33_5
	movq	1032(%rbx), %rdx
	cmpq	$1023, %rdx
	ja	.LBB33_5
.LBB33_1076:
	movb	$100, 4(%rbx,%rdx)
	leaq	1(%rdx), %rax
	movq	%rax, 1032(%rbx)
	cmpq	$1023, %rdx
	jb	.LBB33_1079
	movq	%rbx, %rdi
	callq	"std_io::io::buffer::Buffer::flush"
	movb	$1, %cl
	testb	%al, %al
	je	.LBB33_5
	movq	1032(%rbx), %rax
	cmpq	$1023, %rax
	ja	.LBB33_5
.LBB33_1079:
	movb	$32, 4(%rbx,%rax)
	leaq	1(%rax), %rdx
	movq	%rdx, 1032(%rbx)
	cmpq	$1023, %rax
	jb	.LBB33_1082
	movq	%rbx, %rdi
	callq	"std_io::io::buffer::Buffer::flush"
	movb	$1, %cl
	testb	%al, %al
	je	.LBB33_5
	movq	1032(%rbx), %rdx
	cmpq	$1023, %rdx
	ja	.LBB33_5
.LBB33_1082:
	movb	$98, 4(%rbx,%rdx)
	leaq	1(%rdx), %rax
	movq	%rax, 1032(%rbx)
	cmpq	$1023, %rdx
	jb	.LBB33_1085
	movq	%rbx, %rdi
	callq	"std_io::io::buffer::Buffer::flush"
	movb	$1, %cl
	testb	%al, %al
	je	.LBB33_5
	movq	1032(%rbx), %rax
	cmpq	$1023, %rax
	ja	.LBB33_5
.LBB33_1085:
	movb	$108, 4(%rbx,%rax)
	leaq	1(%rax), %rdx
	movq	%rdx, 1032(%rbx)
	cmpq	$1023, %rax
	jb	.LBB33_1088
	movq	%rbx, %rdi
	callq	"std_io::io::buffer::Buffer::flush"
	movb	$1, %cl
	testb	%al, %al
	je	.LBB33_5
	movq	1032(%rbx), %rdx
	cmpq	$1023, %rdx
	ja	.LBB33_5
.LBB33_1088:
	movb	$111, 4(%rbx,%rdx)
	leaq	1(%rdx), %rax
	movq	%rax, 1032(%rbx)
	cmpq	$1023, %rdx
	jb	.LBB33_1091
	movq	%rbx, %rdi
	callq	"std_io::io::buffer::Buffer::flush"
	movb	$1, %cl
	testb	%al, %al
	je	.LBB33_5
	movq	1032(%rbx), %rax
	cmpq	$1023, %rax
	ja	.LBB33_5
.LBB33_1091:
	movb	$99, 4(%rbx,%rax)
	leaq	1(%rax), %rdx
	movq	%rdx, 1032(%rbx)
	cmpq	$1023, %rax
	jb	.LBB33_1094
	movq	%rbx, %rdi
	callq	"std_io::io::buffer::Buffer::flush"
	movb	$1, %cl
	testb	%al, %al
	je	.LBB33_5
	movq	1032(%rbx), %rdx
	cmpq	$1023, %rdx
	ja	.LBB33_5
.LBB33_1094:
	movb	$107, 4(%rbx,%rdx)
	jmp	.LBB33_806
.LBB33_1095:
	testq	%rax, %rax
	jne	.LBB33_1673
	movq	1032(%rbx), %rdx
	cmpq	$1024, %rdx
	jb	.LBB33_1099
	movq	%rbx, %rdi
	callq	"std_io::io::buffer::Buffer::flush"
	movb	$1, %cl
	testb	%al, %al
	je	.LBB33_5
	movq	1032(%rbx), %rdx
	cmpq	$1023, %rdx
	ja	.LBB33_5
.LBB33_1099:
	movb	$99, 4(%rbx,%rdx)
	leaq	1(%rdx), %rax
	movq	%rax, 1032(%rbx)
	cmpq	$1023, %rdx
	jne	.LBB33_1102
	movq	%rbx, %rdi
	callq	"std_io::io::buffer::Buffer::flush"
	movb	$1, %cl
	testb	%al, %al
	je	.LBB33_5
	movq	1032(%rbx), %rax
	cmpq	$1023, %rax
	ja	.LBB33_5
.LBB33_1102:
	movb	$111, 4(%rbx,%rax)
	leaq	1(%rax), %rdx
	movq	%rdx, 1032(%rbx)
	cmpq	$1023, %rax
	jb	.LBB33_1105
	movq	%rbx, %rdi
	callq	"std_io::io::buffer::Buffer::flush"
	movb	$1, %cl
	testb	%al, %al
	je	.LBB33_5
	movq	1032(%rbx), %rdx
	cmpq	$1023, %rdx
	ja	.LBB33_5
.LBB33_1105:
	movb	$110, 4(%rbx,%rdx)
	leaq	1(%rdx), %rax
	movq	%rax, 1032(%rbx)
	cmpq	$1023, %rdx
	jb	.LBB33_1108
	movq	%rbx, %rdi
	callq	"std_io::io::buffer::Buffer::flush"
	movb	$1, %cl
	testb	%al, %al
	je	.LBB33_5
	movq	1032(%rbx), %rax
	cmpq	$1023, %rax
	ja	.LBB33_5
.LBB33_1108:
	movb	$110, 4(%rbx,%rax)
	leaq	1(%rax), %rdx
	movq	%rdx, 1032(%rbx)
	cmpq	$1023, %rax
	jb	.LBB33_1111
	movq	%rbx, %rdi
	callq	"std_io::io::buffer::Buffer::flush"
	movb	$1, %cl
	testb	%al, %al
	je	.LBB33_5
	movq	1032(%rbx), %rdx
	cmpq	$1023, %rdx
	ja	.LBB33_5
.LBB33_1111:
	movb	$101, 4(%rbx,%rdx)
	leaq	1(%rdx), %rax
	movq	%rax, 1032(%rbx)
	cmpq	$1023, %rdx
	jb	.LBB33_1114
	movq	%rbx, %rdi
	callq	"std_io::io::buffer::Buffer::flush"
	movb	$1, %cl
	testb	%al, %al
	je	.LBB33_5
	movq	1032(%rbx), %rax
	cmpq	$1023, %rax
	ja	.LBB33_5
.LBB33_1114:
	movb	$99, 4(%rbx,%rax)
	leaq	1(%rax), %rdx
	movq	%rdx, 1032(%rbx)
	cmpq	$1023, %rax
	jb	.LBB33_1117
	movq	%rbx, %rdi
	callq	"std_io::io::buffer::Buffer::flush"
	movb	$1, %cl
	testb	%al, %al
	je	.LBB33_5
	movq	1032(%rbx), %rdx
	cmpq	$1023, %rdx
	ja	.LBB33_5
.LBB33_1117:
	movb	$116, 4(%rbx,%rdx)
	leaq	1(%rdx), %rax
	movq	%rax, 1032(%rbx)
	cmpq	$1023, %rdx
	jb	.LBB33_1120
	movq	%rbx, %rdi
	callq	"std_io::io::buffer::Buffer::flush"
	movb	$1, %cl
	testb	%al, %al
	je	.LBB33_5
	movq	1032(%rbx), %rax
	cmpq	$1023, %rax
	ja	.LBB33_5
.LBB33_1120:
	movb	$105, 4(%rbx,%rax)
	leaq	1(%rax), %rdx
	movq	%rdx, 1032(%rbx)
	cmpq	$1023, %rax
	jb	.LBB33_1123
	movq	%rbx, %rdi
	callq	"std_io::io::buffer::Buffer::flush"
	movb	$1, %cl
	testb	%al, %al
	je	.LBB33_5
	movq	1032(%rbx), %rdx
	cmpq	$1023, %rdx
	ja	.LBB33_5
.LBB33_1123:
	movb	$111, 4(%rbx,%rdx)
	leaq	1(%rdx), %rax
	movq	%rax, 1032(%rbx)
	cmpq	$1023, %rdx
	jb	.LBB33_1126
	movq	%rbx, %rdi
	callq	"std_io::io::buffer::Buffer::flush"
	movb	$1, %cl
	testb	%al, %al
	je	.LBB33_5
	movq	1032(%rbx), %rax
	cmpq	$1023, %rax
	ja	.LBB33_5
.LBB33_1126:
	movb	$110, 4(%rbx,%rax)
	leaq	1(%rax), %rdx
	movq	%rdx, 1032(%rbx)
	cmpq	$1023, %rax
	jb	.LBB33_1129
	movq	%rbx, %rdi
	callq	"std_io::io::buffer::Buffer::flush"
	movb	$1, %cl
	testb	%al, %al
	je	.LBB33_5
	movq	1032(%rbx), %rdx
	cmpq	$1023, %rdx
	ja	.LBB33_5
.LBB33_1129:
	movb	$32, 4(%rbx,%rdx)
	leaq	1(%rdx), %rax
	movq	%rax, 1032(%rbx)
	cmpq	$1023, %rdx
	jb	.LBB33_1132
	movq	%rbx, %rdi
	callq	"std_io::io::buffer::Buffer::flush"
	movb	$1, %cl
	testb	%al, %al
	je	.LBB33_5
	movq	1032(%rbx), %rax
	cmpq	$1023, %rax
	ja	.LBB33_5
.LBB33_1132:
	movb	$97, 4(%rbx,%rax)
	leaq	1(%rax), %rdx
	movq	%rdx, 1032(%rbx)
	cmpq	$1023, %rax
	jb	.LBB33_1135
	movq	%rbx, %rdi
	callq	"std_io::io::buffer::Buffer::flush"
	movb	$1, %cl
	testb	%al, %al
	je	.LBB33_5
	movq	1032(%rbx), %rdx
	cmpq	$1023, %rdx
	ja	.LBB33_5
.LBB33_1135:
	movb	$98, 4(%rbx,%rdx)
	leaq	1(%rdx), %rax
	movq	%rax, 1032(%rbx)
	cmpq	$1023, %rdx
	jb	.LBB33_1138
	movq	%rbx, %rdi
	callq	"std_io::io::buffer::Buffer::flush"
	movb	$1, %cl
	testb	%al, %al
	je	.LBB33_5
	movq	1032(%rbx), %rax
	cmpq	$1023, %rax
	ja	.LBB33_5
.LBB33_1138:
	movb	$111, 4(%rbx,%rax)
	leaq	1(%rax), %rdx
	movq	%rdx, 1032(%rbx)
	cmpq	$1023, %rax
	jb	.LBB33_1141
	movq	%rbx, %rdi
	callq	"std_io::io::buffer::Buffer::flush"
	movb	$1, %cl
	testb	%al, %al
	je	.LBB33_5
	movq	1032(%rbx), %rdx
	cmpq	$1023, %rdx
	ja	.LBB33_5
.LBB33_1141:
	movb	$114, 4(%rbx,%rdx)
	leaq	1(%rdx), %rax
	movq	%rax, 1032(%rbx)
	cmpq	$1023, %rdx
	jb	.LBB33_1144
	movq	%rbx, %rdi
	callq	"std_io::io::buffer::Buffer::flush"
	movb	$1, %cl
	testb	%al, %al
	je	.LBB33_5
	movq	1032(%rbx), %rax
	cmpq	$1023, %rax
	ja	.LBB33_5
.LBB33_1144:
	movb	$116, 4(%rbx,%rax)
	leaq	1(%rax), %rdx
	movq	%rdx, 1032(%rbx)
	cmpq	$1023, %rax
	jb	.LBB33_670
	movq	%rbx, %rdi
	callq	"std_io::io::buffer::Buffer::flush"
	movb	$1, %cl
	testb	%al, %al
	je	.LBB33_5
	movq	1032(%rbx), %rdx
	cmpq	$1023, %rdx
	ja	.LBB33_5
.LBB33_670:
	movb	$101, 4(%rbx,%rdx)
	leaq	1(%rdx), %rax
	movq	%rax, 1032(%rbx)
	cmpq	$1023, %rdx
	jb	.LBB33_1596
.LBB33_1640:
	movq	%rbx, %rdi
	callq	"std_io::io::buffer::Buffer::flush"
	movb	$1, %cl
	testb	%al, %al
	je	.LBB33_5
	movq	1032(%rbx), %rax
	cmpq	$1023, %rax
	ja	.LBB33_5
	jmp	.LBB33_1596
.LBB33_1147:
	testq	%rax, %rax
	jne	.LBB33_1674
	movq	1032(%rbx), %rax
	xorl	%r14d, %r14d
	jmp	.LBB33_1150
	.p2align	4
.LBB33_1149:
	movb	%bpl, 4(%rbx,%rax)
	incq	%rax
	movq	%rax, 1032(%rbx)
	incq	%r14
	xorl	%ecx, %ecx
	cmpq	$56, %r14
	je	.LBB33_5
.LBB33_1150:
	leaq	.Lstatic.136(%rip), %rcx
	movzbl	(%r14,%rcx), %ebp
	cmpq	$1024, %rax
	jb	.LBB33_1149
	movq	%rbx, %rdi
	callq	"std_io::io::buffer::Buffer::flush"
	movb	$1, %cl
	testb	%al, %al
	je	.LBB33_5
	movq	1032(%rbx), %rax
	cmpq	$1023, %rax
	jbe	.LBB33_1149
	jmp	.LBB33_5
.LBB33_1153:
	testq	%rax, %rax
	jne	.LBB33_1675
	movq	1032(%rbx), %rdx
	cmpq	$1024, %rdx
	jb	.LBB33_1157
	movq	%rbx, %rdi
	callq	"std_io::io::buffer::Buffer::flush"
	movb	$1, %cl
	testb	%al, %al
	je	.LBB33_5
	movq	1032(%rbx), %rdx
	cmpq	$1023, %rdx
	ja	.LBB33_5
.LBB33_1157:
	movb	$110, 4(%rbx,%rdx)
	leaq	1(%rdx), %rax
	movq	%rax, 1032(%rbx)
	cmpq	$1023, %rdx
	jne	.LBB33_1160
	movq	%rbx, %rdi
	callq	"std_io::io::buffer::Buffer::flush"
	movb	$1, %cl
	testb	%al, %al
	je	.LBB33_5
	movq	1032(%rbx), %rax
	cmpq	$1023, %rax
	ja	.LBB33_5
.LBB33_1160:
	movb	$101, 4(%rbx,%rax)
	leaq	1(%rax), %rdx
	movq	%rdx, 1032(%rbx)
	cmpq	$1023, %rax
	jb	.LBB33_1163
	movq	%rbx, %rdi
	callq	"std_io::io::buffer::Buffer::flush"
	movb	$1, %cl
	testb	%al, %al
	je	.LBB33_5
	movq	1032(%rbx), %rdx
	cmpq	$1023, %rdx
	ja	.LBB33_5
.LBB33_1163:
	movb	$116, 4(%rbx,%rdx)
	leaq	1(%rdx), %rax
	movq	%rax, 1032(%rbx)
	cmpq	$1023, %rdx
	jb	.LBB33_1166
	movq	%rbx, %rdi
	callq	"std_io::io::buffer::Buffer::flush"
	movb	$1, %cl
	testb	%al, %al
	je	.LBB33_5
	movq	1032(%rbx), %rax
	cmpq	$1023, %rax
	ja	.LBB33_5
.LBB33_1166:
	movb	$119, 4(%rbx,%rax)
	leaq	1(%rax), %rdx
	movq	%rdx, 1032(%rbx)
	cmpq	$1023, %rax
	jb	.LBB33_1169
	movq	%rbx, %rdi
	callq	"std_io::io::buffer::Buffer::flush"
	movb	$1, %cl
	testb	%al, %al
	je	.LBB33_5
	movq	1032(%rbx), %rdx
	cmpq	$1023, %rdx
	ja	.LBB33_5
.LBB33_1169:
	movb	$111, 4(%rbx,%rdx)
	leaq	1(%rdx), %rax
	movq	%rax, 1032(%rbx)
	cmpq	$1023, %rdx
	jb	.LBB33_1172
	movq	%rbx, %rdi
	callq	"std_io::io::buffer::Buffer::flush"
	movb	$1, %cl
	testb	%al, %al
	je	.LBB33_5
	movq	1032(%rbx), %rax
	cmpq	$1023, %rax
	ja	.LBB33_5
.LBB33_1172:
	movb	$114, 4(%rbx,%rax)
	leaq	1(%rax), %rdx
	movq	%rdx, 1032(%rbx)
	cmpq	$1023, %rax
	jb	.LBB33_1175
	movq	%rbx, %rdi
	callq	"std_io::io::buffer::Buffer::flush"
	movb	$1, %cl
	testb	%al, %al
	je	.LBB33_5
	movq	1032(%rbx), %rdx
	cmpq	$1023, %rdx
	ja	.LBB33_5
.LBB33_1175:
	movb	$107, 4(%rbx,%rdx)
	leaq	1(%rdx), %rax
	movq	%rax, 1032(%rbx)
	cmpq	$1023, %rdx
	jb	.LBB33_1178
	movq	%rbx, %rdi
	callq	"std_io::io::buffer::Buffer::flush"
	movb	$1, %cl
	testb	%al, %al
	je	.LBB33_5
	movq	1032(%rbx), %rax
	cmpq	$1023, %rax
	ja	.LBB33_5
.LBB33_1178:
	movb	$32, 4(%rbx,%rax)
	leaq	1(%rax), %rdx
	movq	%rdx, 1032(%rbx)
	cmpq	$1023, %rax
	jb	.LBB33_1181
	movq	%rbx, %rdi
	callq	"std_io::io::buffer::Buffer::flush"
	movb	$1, %cl
	testb	%al, %al
	je	.LBB33_5
	movq	1032(%rbx), %rdx
	cmpq	$1023, %rdx
	ja	.LBB33_5
.LBB33_1181:
	movb	$100, 4(%rbx,%rdx)
	leaq	1(%rdx), %rax
	movq	%rax, 1032(%rbx)
	cmpq	$1023, %rdx
	jb	.LBB33_1184
	movq	%rbx, %rdi
	callq	"std_io::io::buffer::Buffer::flush"
	movb	$1, %cl
	testb	%al, %al
	je	.LBB33_5
	movq	1032(%rbx), %rax
	cmpq	$1023, %rax
	ja	.LBB33_5
.LBB33_1184:
	movb	$111, 4(%rbx,%rax)
	leaq	1(%rax), %rdx
	movq	%rdx, 1032(%rbx)
	cmpq	$1023, %rax
	jb	.LBB33_1187
	movq	%rbx, %rdi
	callq	"std_io::io::buffer::Buffer::flush"
	movb	$1, %cl
	testb	%al, %al
	je	.LBB33_5
	movq	1032(%rbx), %rdx
	cmpq	$1023, %rdx
	ja	.LBB33_5
.LBB33_1187:
	movb	$119, 4(%rbx,%rdx)
	leaq	1(%rdx), %rax
	movq	%rax, 1032(%rbx)
	cmpq	$1023, %rdx
	jb	.LBB33_1190
	movq	%rbx, %rdi
	callq	"std_io::io::buffer::Buffer::flush"
	movb	$1, %cl
	testb	%al, %al
	je	.LBB33_5
	movq	1032(%rbx), %rax
	cmpq	$1023, %rax
	ja	.LBB33_5
.LBB33_1190:
	movb	$110, 4(%rbx,%rax)
	jmp	.LBB33_1235
.LBB33_1191:
	testq	%rax, %rax
	jne	.LBB33_1676
	movq	1032(%rbx), %rdx
	cmpq	$1024, %rdx
	jb	.LBB33_1195
	movq	%rbx, %rdi
	callq	"std_io::io::buffer::Buffer::flush"
	movb	$1, %cl
	testb	%al, %al
	je	.LBB33_5
	movq	1032(%rbx), %rdx
	cmpq	$1023, %rdx
	ja	.LBB33_5
.LBB33_1195:
	movb	$97, 4(%rbx,%rdx)
	leaq	1(%rdx), %rax
	movq	%rax, 1032(%rbx)
	cmpq	$1023, %rdx
	jne	.LBB33_1198
	movq	%rbx, %rdi
	callq	"std_io::io::buffer::Buffer::flush"
	movb	$1, %cl
	testb	%al, %al
	je	.LBB33_5
	movq	1032(%rbx), %rax
	cmpq	$1023, %rax
	ja	.LBB33_5
.LBB33_1198:
	movb	$100, 4(%rbx,%rax)
	leaq	1(%rax), %rdx
	movq	%rdx, 1032(%rbx)
	cmpq	$1023, %rax
	jb	.LBB33_1201
	movq	%rbx, %rdi
	callq	"std_io::io::buffer::Buffer::flush"
	movb	$1, %cl
	testb	%al, %al
	je	.LBB33_5
	movq	1032(%rbx), %rdx
	cmpq	$1023, %rdx
	ja	.LBB33_5
.LBB33_1201:
	movb	$100, 4(%rbx,%rdx)
	leaq	1(%rdx), %rax
	movq	%rax, 1032(%rbx)
	cmpq	$1023, %rdx
	jb	.LBB33_1204
	movq	%rbx, %rdi
	callq	"std_io::io::buffer::Buffer::flush"
	movb	$1, %cl
	testb	%al, %al
	je	.LBB33_5
	movq	1032(%rbx), %rax
	cmpq	$1023, %rax
	ja	.LBB33_5
.LBB33_1204:
	movb	$114, 4(%rbx,%rax)
	leaq	1(%rax), %rdx
	movq	%rdx, 1032(%rbx)
	cmpq	$1023, %rax
	jb	.LBB33_1207
	movq	%rbx, %rdi
	callq	"std_io::io::buffer::Buffer::flush"
	movb	$1, %cl
	testb	%al, %al
	je	.LBB33_5
	movq	1032(%rbx), %rdx
	cmpq	$1023, %rdx
	ja	.LBB33_5
.LBB33_1207:
	movb	$101, 4(%rbx,%rdx)
	leaq	1(%rdx), %rax
	movq	%rax, 1032(%rbx)
	cmpq	$1023, %rdx
	jb	.LBB33_1210
	movq	%rbx, %rdi
	callq	"std_io::io::buffer::Buffer::flush"
	movb	$1, %cl
	testb	%al, %al
	je	.LBB33_5
	movq	1032(%rbx), %rax
	cmpq	$1023, %rax
	ja	.LBB33_5
.LBB33_1210:
	movb	$115, 4(%rbx,%rax)
	leaq	1(%rax), %rdx
	movq	%rdx, 1032(%rbx)
	cmpq	$1023, %rax
	jb	.LBB33_1213
	movq	%rbx, %rdi
	callq	"std_io::io::buffer::Buffer::flush"
	movb	$1, %cl
	testb	%al, %al
	je	.LBB33_5
	movq	1032(%rbx), %rdx
	cmpq	$1023, %rdx
	ja	.LBB33_5
.LBB33_1213:
	movb	$115, 4(%rbx,%rdx)
	leaq	1(%rdx), %rax
	movq	%rax, 1032(%rbx)
	cmpq	$1023, %rdx
	jb	.LBB33_1216
	movq	%rbx, %rdi
	callq	"std_io::io::buffer::Buffer::flush"
	movb	$1, %cl
	testb	%al, %al
	je	.LBB33_5
	movq	1032(%rbx), %rax
	cmpq	$1023, %rax
	ja	.LBB33_5
.LBB33_1216:
	movb	$32, 4(%rbx,%rax)
	leaq	1(%rax), %rdx
	movq	%rdx, 1032(%rbx)
	cmpq	$1023, %rax
	jb	.LBB33_1219
	movq	%rbx, %rdi
	callq	"std_io::io::buffer::Buffer::flush"
	movb	$1, %cl
	testb	%al, %al
	je	.LBB33_5
	movq	1032(%rbx), %rdx
	cmpq	$1023, %rdx
	ja	.LBB33_5
.LBB33_1219:
	movb	$105, 4(%rbx,%rdx)
	leaq	1(%rdx), %rax
	movq	%rax, 1032(%rbx)
	cmpq	$1023, %rdx
	jb	.LBB33_1222
	movq	%rbx, %rdi
	callq	"std_io::io::buffer::Buffer::flush"
	movb	$1, %cl
	testb	%al, %al
	je	.LBB33_5
	movq	1032(%rbx), %rax
	cmpq	$1023, %rax
	ja	.LBB33_5
.LBB33_1222:
	movb	$110, 4(%rbx,%rax)
	leaq	1(%rax), %rdx
	movq	%rdx, 1032(%rbx)
	cmpq	$1023, %rax
	jb	.LBB33_1225
	movq	%rbx, %rdi
	callq	"std_io::io::buffer::Buffer::flush"
	movb	$1, %cl
	testb	%al, %al
	je	.LBB33_5
	movq	1032(%rbx), %rdx
	cmpq	$1023, %rdx
	ja	.LBB33_5
.LBB33_1225:
	movb	$32, 4(%rbx,%rdx)
	leaq	1(%rdx), %rax
	movq	%rax, 1032(%rbx)
	cmpq	$1023, %rdx
	jb	.LBB33_1228
	movq	%rbx, %rdi
	callq	"std_io::io::buffer::Buffer::flush"
	movb	$1, %cl
	testb	%al, %al
	je	.LBB33_5
	movq	1032(%rbx), %rax
	cmpq	$1023, %rax
	ja	.LBB33_5
.LBB33_1228:
	movb	$117, 4(%rbx,%rax)
	leaq	1(%rax), %rdx
	movq	%rdx, 1032(%rbx)
	cmpq	$1023, %rax
	jb	.LBB33_1231
	movq	%rbx, %rdi
	callq	"std_io::io::buffer::Buffer::flush"
	movb	$1, %cl
	testb	%al, %al
	je	.LBB33_5
	movq	1032(%rbx), %rdx
	cmpq	$1023, %rdx
	ja	.LBB33_5
.LBB33_1231:
	movb	$115, 4(%rbx,%rdx)
	leaq	1(%rdx), %rax
	movq	%rax, 1032(%rbx)
	cmpq	$1023, %rdx
	jb	.LBB33_1234
	movq	%rbx, %rdi
	callq	"std_io::io::buffer::Buffer::flush"
	movb	$1, %cl
	testb	%al, %al
	je	.LBB33_5
	movq	1032(%rbx), %rax
	cmpq	$1023, %rax
	ja	.LBB33_5
.LBB33_1234:
	movb	$101, 4(%rbx,%rax)
	jmp	.LBB33_1235
.LBB33_1236:
	testq	%rax, %rax
	jne	.LBB33_1677
	movq	1032(%rbx), %rdx
	cmpq	$1024, %rdx
	jb	.LBB33_1240
	movq	%rbx, %rdi
	callq	"std_io::io::buffer::Buffer::flush"
	testb	%al, %al
	je	.LBB33_153
	movq	1032(%rbx), %rdx
	movb	$1, %cl
	cmpq	$1023, %rdx
	ja	.LBB33_5
.LBB33_1240:
	movb	$100, 4(%rbx,%rdx)
	leaq	1(%rdx), %rax
	movq	%rax, 1032(%rbx)
	cmpq	$1023, %rdx
	jne	.LBB33_1243
	movq	%rbx, %rdi
	callq	"std_io::io::buffer::Buffer::flush"
	testb	%al, %al
	je	.LBB33_153
	movq	1032(%rbx), %rax
	movb	$1, %cl
	cmpq	$1023, %rax
	ja	.LBB33_5
.LBB33_1243:
	movb	$101, 4(%rbx,%rax)
	leaq	1(%rax), %rdx
	movq	%rdx, 1032(%rbx)
	cmpq	$1023, %rax
	jb	.LBB33_1246
	movq	%rbx, %rdi
	callq	"std_io::io::buffer::Buffer::flush"
	testb	%al, %al
	je	.LBB33_153
	movq	1032(%rbx), %rdx
	movb	$1, %cl
	cmpq	$1023, %rdx
	ja	.LBB33_5
.LBB33_1246:
	movb	$97, 4(%rbx,%rdx)
	leaq	1(%rdx), %rax
	movq	%rax, 1032(%rbx)
	cmpq	$1023, %rdx
	jb	.LBB33_1249
	movq	%rbx, %rdi
	callq	"std_io::io::buffer::Buffer::flush"
	testb	%al, %al
	je	.LBB33_153
	movq	1032(%rbx), %rax
	movb	$1, %cl
	cmpq	$1023, %rax
	ja	.LBB33_5
.LBB33_1249:
	movb	$100, 4(%rbx,%rax)
	leaq	1(%rax), %rdx
	movq	%rdx, 1032(%rbx)
	cmpq	$1023, %rax
	jb	.LBB33_1252
	movq	%rbx, %rdi
	callq	"std_io::io::buffer::Buffer::flush"
	testb	%al, %al
	je	.LBB33_153
	movq	1032(%rbx), %rdx
	movb	$1, %cl
	cmpq	$1023, %rdx
	ja	.LBB33_5
.LBB33_1252:
	movb	$108, 4(%rbx,%rdx)
	leaq	1(%rdx), %rax
	movq	%rax, 1032(%rbx)
	cmpq	$1023, %rdx
	jb	.LBB33_1255
	movq	%rbx, %rdi
	callq	"std_io::io::buffer::Buffer::flush"
	testb	%al, %al
	je	.LBB33_153
	movq	1032(%rbx), %rax
	movb	$1, %cl
	cmpq	$1023, %rax
	ja	.LBB33_5
.LBB33_1255:
	movb	$111, 4(%rbx,%rax)
	leaq	1(%rax), %rdx
	movq	%rdx, 1032(%rbx)
	cmpq	$1023, %rax
	jb	.LBB33_1258
	movq	%rbx, %rdi
	callq	"std_io::io::buffer::Buffer::flush"
	testb	%al, %al
	je	.LBB33_153
	movq	1032(%rbx), %rdx
	movb	$1, %cl
	cmpq	$1023, %rdx
	ja	.LBB33_5
.LBB33_1258:
	movb	$99, 4(%rbx,%rdx)
	leaq	1(%rdx), %rax
	movq	%rax, 1032(%rbx)
	cmpq	$1023, %rdx
	jb	.LBB33_1261
	movq	%rbx, %rdi
	callq	"std_io::io::buffer::Buffer::flush"
	testb	%al, %al
	je	.LBB33_153
	movq	1032(%rbx), %rax
	movb	$1, %cl
	cmpq	$1023, %rax
	ja	.LBB33_5
.LBB33_1261:
	movb	$107, 4(%rbx,%rax)
.LBB33_1262:
	incq	%rax
	movq	%rax, 1032(%rbx)
	xorl	%ecx, %ecx
	jmp	.LBB33_5
.LBB33_1263:
	testq	%rax, %rax
	jne	.LBB33_1678
	movq	1032(%rbx), %rdx
	cmpq	$1024, %rdx
	jb	.LBB33_1267
	movq	%rbx, %rdi
	callq	"std_io::io::buffer::Buffer::flush"
	testb	%al, %al
	je	.LBB33_153
	movq	1032(%rbx), %rdx
	movb	$1, %cl
	cmpq	$1023, %rdx
	ja	.LBB33_5
.LBB33_1267:
	movb	$116, 4(%rbx,%rdx)
	leaq	1(%rdx), %rax
	movq	%rax, 1032(%rbx)
	cmpq	$1023, %rdx
	jne	.LBB33_1270
	movq	%rbx, %rdi
	callq	"std_io::io::buffer::Buffer::flush"
	testb	%al, %al
	je	.LBB33_153
	movq	1032(%rbx), %rax
	movb	$1, %cl
	cmpq	$1023, %rax
	ja	.LBB33_5
.LBB33_1270:
	movb	$111, 4(%rbx,%rax)
	leaq	1(%rax), %rdx
	movq	%rdx, 1032(%rbx)
	cmpq	$1023, %rax
	jb	.LBB33_1273
	movq	%rbx, %rdi
	callq	"std_io::io::buffer::Buffer::flush"
	testb	%al, %al
	je	.LBB33_153
	movq	1032(%rbx), %rdx
	movb	$1, %cl
	cmpq	$1023, %rdx
	ja	.LBB33_5
.LBB33_1273:
	movb	$111, 4(%rbx,%rdx)
	leaq	1(%rdx), %rax
	movq	%rax, 1032(%rbx)
	cmpq	$1023, %rdx
	jb	.LBB33_1276
	movq	%rbx, %rdi
	callq	"std_io::io::buffer::Buffer::flush"
	testb	%al, %al
	je	.LBB33_153
	movq	1032(%rbx), %rax
	movb	$1, %cl
	cmpq	$1023, %rax
	ja	.LBB33_5
.LBB33_1276:
	movb	$32, 4(%rbx,%rax)
	leaq	1(%rax), %rdx
	movq	%rdx, 1032(%rbx)
	cmpq	$1023, %rax
	jb	.LBB33_1279
	movq	%rbx, %rdi
	callq	"std_io::io::buffer::Buffer::flush"
	testb	%al, %al
	je	.LBB33_153
	movq	1032(%rbx), %rdx
	movb	$1, %cl
	cmpq	$1023, %rdx
	ja	.LBB33_5
.LBB33_1279:
	movb	$109, 4(%rbx,%rdx)
	leaq	1(%rdx), %rax
	movq	%rax, 1032(%rbx)
	cmpq	$1023, %rdx
	jb	.LBB33_1282
	movq	%rbx, %rdi
	callq	"std_io::io::buffer::Buffer::flush"
	testb	%al, %al
	je	.LBB33_153
	movq	1032(%rbx), %rax
	movb	$1, %cl
	cmpq	$1023, %rax
	ja	.LBB33_5
.LBB33_1282:
	movb	$97, 4(%rbx,%rax)
	leaq	1(%rax), %rdx
	movq	%rdx, 1032(%rbx)
	cmpq	$1023, %rax
	jb	.LBB33_1285
	movq	%rbx, %rdi
	callq	"std_io::io::buffer::Buffer::flush"
	testb	%al, %al
	je	.LBB33_153
	movq	1032(%rbx), %rdx
	movb	$1, %cl
	cmpq	$1023, %rdx
	ja	.LBB33_5
.LBB33_1285:
	movb	$110, 4(%rbx,%rdx)
	leaq	1(%rdx), %rax
	movq	%rax, 1032(%rbx)
	cmpq	$1023, %rdx
	jb	.LBB33_1288
	movq	%rbx, %rdi
	callq	"std_io::io::buffer::Buffer::flush"
	testb	%al, %al
	je	.LBB33_153
	movq	1032(%rbx), %rax
	movb	$1, %cl
	cmpq	$1023, %rax
	ja	.LBB33_5
.LBB33_1288:
	movb	$121, 4(%rbx,%rax)
	leaq	1(%rax), %rdx
	movq	%rdx, 1032(%rbx)
	cmpq	$1023, %rax
	jb	.LBB33_1291
	movq	%rbx, %rdi
	callq	"std_io::io::buffer::Buffer::flush"
	testb	%al, %al
	je	.LBB33_153
	movq	1032(%rbx), %rdx
	movb	$1, %cl
	cmpq	$1023, %rdx
	ja	.LBB33_5
.LBB33_1291:
	movb	$32, 4(%rbx,%rdx)
	leaq	1(%rdx), %rax
	movq	%rax, 1032(%rbx)
	cmpq	$1023, %rdx
	jb	.LBB33_1294
	movq	%rbx, %rdi
	callq	"std_io::io::buffer::Buffer::flush"
	testb	%al, %al
	je	.LBB33_153
	movq	1032(%rbx), %rax
	movb	$1, %cl
	cmpq	$1023, %rax
	ja	.LBB33_5
.LBB33_1294:
	movb	$108, 4(%rbx,%rax)
	leaq	1(%rax), %rdx
	movq	%rdx, 1032(%rbx)
	cmpq	$1023, %rax
	jb	.LBB33_1297
	movq	%rbx, %rdi
	callq	"std_io::io::buffer::Buffer::flush"
	testb	%al, %al
	je	.LBB33_153
	movq	1032(%rbx), %rdx
	movb	$1, %cl
	cmpq	$1023, %rdx
	ja	.LBB33_5
.LBB33_1297:
	movb	$105, 4(%rbx,%rdx)
	leaq	1(%rdx), %rax
	movq	%rax, 1032(%rbx)
	cmpq	$1023, %rdx
	jb	.LBB33_1300
	movq	%rbx, %rdi
	callq	"std_io::io::buffer::Buffer::flush"
	testb	%al, %al
	je	.LBB33_153
	movq	1032(%rbx), %rax
	movb	$1, %cl
	cmpq	$1023, %rax
	ja	.LBB33_5
.LBB33_1300:
	movb	$110, 4(%rbx,%rax)
	leaq	1(%rax), %rdx
	movq	%rdx, 1032(%rbx)
	cmpq	$1023, %rax
	jb	.LBB33_1303
	movq	%rbx, %rdi
	callq	"std_io::io::buffer::Buffer::flush"
	testb	%al, %al
	je	.LBB33_153
	movq	1032(%rbx), %rdx
	movb	$1, %cl
	cmpq	$1023, %rdx
	ja	.LBB33_5
.LBB33_1303:
	movb	$107, 4(%rbx,%rdx)
	leaq	1(%rdx), %rax
	movq	%rax, 1032(%rbx)
	cmpq	$1023, %rdx
	jb	.LBB33_1306
	movq	%rbx, %rdi
	callq	"std_io::io::buffer::Buffer::flush"
	testb	%al, %al
	je	.LBB33_153
	movq	1032(%rbx), %rax
	movb	$1, %cl
	cmpq	$1023, %rax
	ja	.LBB33_5
.LBB33_1306:
	movb	$115, 4(%rbx,%rax)
	jmp	.LBB33_1262
.LBB33_1307:
	testq	%rax, %rax
	jne	.LBB33_1679
	movq	1032(%rbx), %rdx
	cmpq	$1024, %rdx
	jb	.LBB33_1311
	movq	%rbx, %rdi
	callq	"std_io::io::buffer::Buffer::flush"
	testb	%al, %al
	je	.LBB33_153
	movq	1032(%rbx), %rdx
	movb	$1, %cl
	cmpq	$1023, %rdx
	ja	.LBB33_5
.LBB33_1311:
	movb	$116, 4(%rbx,%rdx)
	leaq	1(%rdx), %rax
	movq	%rax, 1032(%rbx)
	cmpq	$1023, %rdx
	jne	.LBB33_1314
	movq	%rbx, %rdi
	callq	"std_io::io::buffer::Buffer::flush"
	testb	%al, %al
	je	.LBB33_153
	movq	1032(%rbx), %rax
	movb	$1, %cl
	cmpq	$1023, %rax
	ja	.LBB33_5
.LBB33_1314:
	movb	$105, 4(%rbx,%rax)
	leaq	1(%rax), %rdx
	movq	%rdx, 1032(%rbx)
	cmpq	$1023, %rax
	jb	.LBB33_1317
	movq	%rbx, %rdi
	callq	"std_io::io::buffer::Buffer::flush"
	testb	%al, %al
	je	.LBB33_153
	movq	1032(%rbx), %rdx
	movb	$1, %cl
	cmpq	$1023, %rdx
	ja	.LBB33_5
.LBB33_1317:
	movb	$109, 4(%rbx,%rdx)
	leaq	1(%rdx), %rax
	movq	%rax, 1032(%rbx)
	cmpq	$1023, %rdx
	jb	.LBB33_1320
	movq	%rbx, %rdi
	callq	"std_io::io::buffer::Buffer::flush"
	testb	%al, %al
	je	.LBB33_153
	movq	1032(%rbx), %rax
	movb	$1, %cl
	cmpq	$1023, %rax
	ja	.LBB33_5
.LBB33_1320:
	movb	$101, 4(%rbx,%rax)
	leaq	1(%rax), %rdx
	movq	%rdx, 1032(%rbx)
	cmpq	$1023, %rax
	jb	.LBB33_1323
	movq	%rbx, %rdi
	callq	"std_io::io::buffer::Buffer::flush"
	testb	%al, %al
	je	.LBB33_153
	movq	1032(%rbx), %rdx
	movb	$1, %cl
	cmpq	$1023, %rdx
	ja	.LBB33_5
.LBB33_1323:
	movb	$100, 4(%rbx,%rdx)
	leaq	1(%rdx), %rax
	movq	%rax, 1032(%rbx)
	cmpq	$1023, %rdx
	jb	.LBB33_1326
	movq	%rbx, %rdi
	callq	"std_io::io::buffer::Buffer::flush"
	testb	%al, %al
	je	.LBB33_153
	movq	1032(%rbx), %rax
	movb	$1, %cl
	cmpq	$1023, %rax
	ja	.LBB33_5
.LBB33_1326:
	movb	$32, 4(%rbx,%rax)
	leaq	1(%rax), %rdx
	movq	%rdx, 1032(%rbx)
	cmpq	$1023, %rax
	jb	.LBB33_1329
	movq	%rbx, %rdi
	callq	"std_io::io::buffer::Buffer::flush"
	testb	%al, %al
	je	.LBB33_153
	movq	1032(%rbx), %rdx
	movb	$1, %cl
	cmpq	$1023, %rdx
	ja	.LBB33_5
.LBB33_1329:
	movb	$111, 4(%rbx,%rdx)
	leaq	1(%rdx), %rax
	movq	%rax, 1032(%rbx)
	cmpq	$1023, %rdx
	jb	.LBB33_1332
	movq	%rbx, %rdi
	callq	"std_io::io::buffer::Buffer::flush"
	testb	%al, %al
	je	.LBB33_153
	movq	1032(%rbx), %rax
	movb	$1, %cl
	cmpq	$1023, %rax
	ja	.LBB33_5
.LBB33_1332:
	movb	$117, 4(%rbx,%rax)
	leaq	1(%rax), %rdx
	movq	%rdx, 1032(%rbx)
	cmpq	$1023, %rax
	jb	.LBB33_1335
	movq	%rbx, %rdi
	callq	"std_io::io::buffer::Buffer::flush"
	testb	%al, %al
	je	.LBB33_153
	movq	1032(%rbx), %rdx
	movb	$1, %cl
	cmpq	$1023, %rdx
	ja	.LBB33_5
.LBB33_1335:
	movb	$116, 4(%rbx,%rdx)
.LBB33_806:
	incq	%rdx
	movq	%rdx, 1032(%rbx)
	xorl	%ecx, %ecx
	jmp	.LBB33_5
.LBB33_1336:
	testq	%rax, %rax
	jne	.LBB33_1680
	movq	1032(%rbx), %rdx
	cmpq	$1024, %rdx
	jb	.LBB33_1340
	movq	%rbx, %rdi
	callq	"std_io::io::buffer::Buffer::flush"
	testb	%al, %al
	je	.LBB33_110
	movq	1032(%rbx), %rdx
	movb	$1, %cl
	cmpq	$1023, %rdx
	ja	.LBB33_5
.LBB33_1340:
	movb	$105, 4(%rbx,%rdx)
	leaq	1(%rdx), %rax
	movq	%rax, 1032(%rbx)
	cmpq	$1023, %rdx
	jne	.LBB33_1343
	movq	%rbx, %rdi
	callq	"std_io::io::buffer::Buffer::flush"
	testb	%al, %al
	je	.LBB33_110
	movq	1032(%rbx), %rax
	movb	$1, %cl
	cmpq	$1023, %rax
	ja	.LBB33_5
.LBB33_1343:
	movb	$110, 4(%rbx,%rax)
	leaq	1(%rax), %rdx
	movq	%rdx, 1032(%rbx)
	cmpq	$1023, %rax
	jb	.LBB33_1346
	movq	%rbx, %rdi
	callq	"std_io::io::buffer::Buffer::flush"
	testb	%al, %al
	je	.LBB33_110
	movq	1032(%rbx), %rdx
	movb	$1, %cl
	cmpq	$1023, %rdx
	ja	.LBB33_5
.LBB33_1346:
	movb	$32, 4(%rbx,%rdx)
	leaq	1(%rdx), %rax
	movq	%rax, 1032(%rbx)
	cmpq	$1023, %rdx
	jb	.LBB33_1349
	movq	%rbx, %rdi
	callq	"std_io::io::buffer::Buffer::flush"
	testb	%al, %al
	je	.LBB33_110
	movq	1032(%rbx), %rax
	movb	$1, %cl
	cmpq	$1023, %rax
	ja	.LBB33_5
.LBB33_1349:
	movb	$112, 4(%rbx,%rax)
	leaq	1(%rax), %rdx
	movq	%rdx, 1032(%rbx)
	cmpq	$1023, %rax
	jb	.LBB33_1352
	movq	%rbx, %rdi
	callq	"std_io::io::buffer::Buffer::flush"
	testb	%al, %al
	je	.LBB33_110
	movq	1032(%rbx), %rdx
	movb	$1, %cl
	cmpq	$1023, %rdx
	ja	.LBB33_5
.LBB33_1352:
	movb	$114, 4(%rbx,%rdx)
	leaq	1(%rdx), %rax
	movq	%rax, 1032(%rbx)
	cmpq	$1023, %rdx
	jb	.LBB33_1355
	movq	%rbx, %rdi
	callq	"std_io::io::buffer::Buffer::flush"
	testb	%al, %al
	je	.LBB33_110
	movq	1032(%rbx), %rax
	movb	$1, %cl
	cmpq	$1023, %rax
	ja	.LBB33_5
.LBB33_1355:
	movb	$111, 4(%rbx,%rax)
	leaq	1(%rax), %rdx
	movq	%rdx, 1032(%rbx)
	cmpq	$1023, %rax
	jb	.LBB33_1358
	movq	%rbx, %rdi
	callq	"std_io::io::buffer::Buffer::flush"
	testb	%al, %al
	je	.LBB33_110
	movq	1032(%rbx), %rdx
	movb	$1, %cl
	cmpq	$1023, %rdx
	ja	.LBB33_5
.LBB33_1358:
	movb	$103, 4(%rbx,%rdx)
	leaq	1(%rdx), %rax
	movq	%rax, 1032(%rbx)
	cmpq	$1023, %rdx
	jb	.LBB33_1361
	movq	%rbx, %rdi
	callq	"std_io::io::buffer::Buffer::flush"
	testb	%al, %al
	je	.LBB33_110
	movq	1032(%rbx), %rax
	movb	$1, %cl
	cmpq	$1023, %rax
	ja	.LBB33_5
.LBB33_1361:
	movb	$114, 4(%rbx,%rax)
	leaq	1(%rax), %rdx
	movq	%rdx, 1032(%rbx)
	cmpq	$1023, %rax
	jb	.LBB33_1364
	movq	%rbx, %rdi
	callq	"std_io::io::buffer::Buffer::flush"
	testb	%al, %al
	je	.LBB33_110
	movq	1032(%rbx), %rdx
	movb	$1, %cl
	cmpq	$1023, %rdx
	ja	.LBB33_5
.LBB33_1364:
	movb	$101, 4(%rbx,%rdx)
	leaq	1(%rdx), %rax
	movq	%rax, 1032(%rbx)
	cmpq	$1023, %rdx
	jb	.LBB33_1367
	movq	%rbx, %rdi
	callq	"std_io::io::buffer::Buffer::flush"
	testb	%al, %al
	je	.LBB33_110
	movq	1032(%rbx), %rax
	movb	$1, %cl
	cmpq	$1023, %rax
	ja	.LBB33_5
.LBB33_1367:
	movb	$115, 4(%rbx,%rax)
	leaq	1(%rax), %rdx
	movq	%rdx, 1032(%rbx)
	cmpq	$1023, %rax
	jb	.LBB33_1370
	movq	%rbx, %rdi
	callq	"std_io::io::buffer::Buffer::flush"
	testb	%al, %al
	je	.LBB33_110
	movq	1032(%rbx), %rdx
	movb	$1, %cl
	cmpq	$1023, %rdx
	ja	.LBB33_5
.LBB33_1370:
	movb	$115, 4(%rbx,%rdx)
	jmp	.LBB33_1552
.LBB33_1371:
	testq	%rax, %rax
	jne	.LBB33_1681
	movq	1032(%rbx), %rax
	xorl	%r14d, %r14d
	jmp	.LBB33_1374
	.p2align	4
.LBB33_1373:
	movb	%bpl, 4(%rbx,%rax)
	incq	%rax
	movq	%rax, 1032(%rbx)
	incq	%r14
	xorl	%ecx, %ecx
	cmpq	$25, %r14
	je	.LBB33_5
.LBB33_1374:
	leaq	.Lstatic.137(%rip), %rcx
	movzbl	(%r14,%rcx), %ebp
	cmpq	$1024, %rax
	jb	.LBB33_1373
	movq	%rbx, %rdi
	callq	"std_io::io::buffer::Buffer::flush"
	movb	$1, %cl
	testb	%al, %al
	je	.LBB33_5
	movq	1032(%rbx), %rax
	cmpq	$1023, %rax
	jbe	.LBB33_1373
	jmp	.LBB33_5
.LBB33_1377:
	testq	%rax, %rax
	jne	.LBB33_1682
	movq	1032(%rbx), %rdx
	cmpq	$1024, %rdx
	jb	.LBB33_1381
	movq	%rbx, %rdi
	callq	"std_io::io::buffer::Buffer::flush"
	testb	%al, %al
	je	.LBB33_153
	movq	1032(%rbx), %rdx
	movb	$1, %cl
	cmpq	$1023, %rdx
	ja	.LBB33_5
.LBB33_1381:
	movb	$119, 4(%rbx,%rdx)
	leaq	1(%rdx), %rax
	movq	%rax, 1032(%rbx)
	cmpq	$1023, %rdx
	jne	.LBB33_1384
	movq	%rbx, %rdi
	callq	"std_io::io::buffer::Buffer::flush"
	testb	%al, %al
	je	.LBB33_153
	movq	1032(%rbx), %rax
	movb	$1, %cl
	cmpq	$1023, %rax
	ja	.LBB33_5
.LBB33_1384:
	movb	$114, 4(%rbx,%rax)
	leaq	1(%rax), %rdx
	movq	%rdx, 1032(%rbx)
	cmpq	$1023, %rax
	jb	.LBB33_1387
	movq	%rbx, %rdi
	callq	"std_io::io::buffer::Buffer::flush"
	testb	%al, %al
	je	.LBB33_153
	movq	1032(%rbx), %rdx
	movb	$1, %cl
	cmpq	$1023, %rdx
	ja	.LBB33_5
.LBB33_1387:
	movb	$105, 4(%rbx,%rdx)
	leaq	1(%rdx), %rax
	movq	%rax, 1032(%rbx)
	cmpq	$1023, %rdx
	jb	.LBB33_1390
	movq	%rbx, %rdi
	callq	"std_io::io::buffer::Buffer::flush"
	testb	%al, %al
	je	.LBB33_153
	movq	1032(%rbx), %rax
	movb	$1, %cl
	cmpq	$1023, %rax
	ja	.LBB33_5
.LBB33_1390:
	movb	$116, 4(%rbx,%rax)
	leaq	1(%rax), %rdx
	movq	%rdx, 1032(%rbx)
	cmpq	$1023, %rax
	jb	.LBB33_1393
	movq	%rbx, %rdi
	callq	"std_io::io::buffer::Buffer::flush"
	testb	%al, %al
	je	.LBB33_153
	movq	1032(%rbx), %rdx
	movb	$1, %cl
	cmpq	$1023, %rdx
	ja	.LBB33_5
.LBB33_1393:
	movb	$101, 4(%rbx,%rdx)
	leaq	1(%rdx), %rax
	movq	%rax, 1032(%rbx)
	cmpq	$1023, %rdx
	jb	.LBB33_1396
	movq	%rbx, %rdi
	callq	"std_io::io::buffer::Buffer::flush"
	testb	%al, %al
	je	.LBB33_153
	movq	1032(%rbx), %rax
	movb	$1, %cl
	cmpq	$1023, %rax
	ja	.LBB33_5
.LBB33_1396:
	movb	$32, 4(%rbx,%rax)
	leaq	1(%rax), %rdx
	movq	%rdx, 1032(%rbx)
	cmpq	$1023, %rax
	jb	.LBB33_1399
	movq	%rbx, %rdi
	callq	"std_io::io::buffer::Buffer::flush"
	testb	%al, %al
	je	.LBB33_153
	movq	1032(%rbx), %rdx
	movb	$1, %cl
	cmpq	$1023, %rdx
	ja	.LBB33_5
.LBB33_1399:
	movb	$122, 4(%rbx,%rdx)
	leaq	1(%rdx), %rax
	movq	%rax, 1032(%rbx)
	cmpq	$1023, %rdx
	jb	.LBB33_1402
	movq	%rbx, %rdi
	callq	"std_io::io::buffer::Buffer::flush"
	testb	%al, %al
	je	.LBB33_153
	movq	1032(%rbx), %rax
	movb	$1, %cl
	cmpq	$1023, %rax
	ja	.LBB33_5
.LBB33_1402:
	movb	$101, 4(%rbx,%rax)
	leaq	1(%rax), %rdx
	movq	%rdx, 1032(%rbx)
	cmpq	$1023, %rax
	jb	.LBB33_1405
	movq	%rbx, %rdi
	callq	"std_io::io::buffer::Buffer::flush"
	testb	%al, %al
	je	.LBB33_153
	movq	1032(%rbx), %rdx
	movb	$1, %cl
	cmpq	$1023, %rdx
	ja	.LBB33_5
.LBB33_1405:
	movb	$114, 4(%rbx,%rdx)
	leaq	1(%rdx), %rax
	movq	%rax, 1032(%rbx)
	cmpq	$1023, %rdx
	jb	.LBB33_1408
	movq	%rbx, %rdi
	callq	"std_io::io::buffer::Buffer::flush"
	testb	%al, %al
	je	.LBB33_153
	movq	1032(%rbx), %rax
	movb	$1, %cl
	cmpq	$1023, %rax
	ja	.LBB33_5
.LBB33_1408:
	movb	$111, 4(%rbx,%rax)
	jmp	.LBB33_1235
.LBB33_1409:
	testq	%rax, %rax
	jne	.LBB33_1683
	movq	1032(%rbx), %rdx
	cmpq	$1024, %rdx
	jb	.LBB33_1413
	movq	%rbx, %rdi
	callq	"std_io::io::buffer::Buffer::flush"
	testb	%al, %al
	je	.LBB33_153
	movq	1032(%rbx), %rdx
	movb	$1, %cl
	cmpq	$1023, %rdx
	ja	.LBB33_5
.LBB33_1413:
	movb	$114, 4(%rbx,%rdx)
	leaq	1(%rdx), %rax
	movq	%rax, 1032(%rbx)
	cmpq	$1023, %rdx
	jne	.LBB33_1416
	movq	%rbx, %rdi
	callq	"std_io::io::buffer::Buffer::flush"
	testb	%al, %al
	je	.LBB33_153
	movq	1032(%rbx), %rax
	movb	$1, %cl
	cmpq	$1023, %rax
	ja	.LBB33_5
.LBB33_1416:
	movb	$101, 4(%rbx,%rax)
	leaq	1(%rax), %rdx
	movq	%rdx, 1032(%rbx)
	cmpq	$1023, %rax
	jb	.LBB33_1419
	movq	%rbx, %rdi
	callq	"std_io::io::buffer::Buffer::flush"
	testb	%al, %al
	je	.LBB33_153
	movq	1032(%rbx), %rdx
	movb	$1, %cl
	cmpq	$1023, %rdx
	ja	.LBB33_5
.LBB33_1419:
	movb	$115, 4(%rbx,%rdx)
	leaq	1(%rdx), %rax
	movq	%rax, 1032(%rbx)
	cmpq	$1023, %rdx
	jb	.LBB33_1422
	movq	%rbx, %rdi
	callq	"std_io::io::buffer::Buffer::flush"
	testb	%al, %al
	je	.LBB33_153
	movq	1032(%rbx), %rax
	movb	$1, %cl
	cmpq	$1023, %rax
	ja	.LBB33_5
.LBB33_1422:
	movb	$111, 4(%rbx,%rax)
	leaq	1(%rax), %rdx
	movq	%rdx, 1032(%rbx)
	cmpq	$1023, %rax
	jb	.LBB33_1425
	movq	%rbx, %rdi
	callq	"std_io::io::buffer::Buffer::flush"
	testb	%al, %al
	je	.LBB33_153
	movq	1032(%rbx), %rdx
	movb	$1, %cl
	cmpq	$1023, %rdx
	ja	.LBB33_5
.LBB33_1425:
	movb	$117, 4(%rbx,%rdx)
	leaq	1(%rdx), %rax
	movq	%rax, 1032(%rbx)
	cmpq	$1023, %rdx
	jb	.LBB33_1428
	movq	%rbx, %rdi
	callq	"std_io::io::buffer::Buffer::flush"
	testb	%al, %al
	je	.LBB33_153
	movq	1032(%rbx), %rax
	movb	$1, %cl
	cmpq	$1023, %rax
	ja	.LBB33_5
.LBB33_1428:
	movb	$114, 4(%rbx,%rax)
	leaq	1(%rax), %rdx
	movq	%rdx, 1032(%rbx)
	cmpq	$1023, %rax
	jb	.LBB33_1431
	movq	%rbx, %rdi
	callq	"std_io::io::buffer::Buffer::flush"
	testb	%al, %al
	je	.LBB33_153
	movq	1032(%rbx), %rdx
	movb	$1, %cl
	cmpq	$1023, %rdx
	ja	.LBB33_5
.LBB33_1431:
	movb	$99, 4(%rbx,%rdx)
	leaq	1(%rdx), %rax
	movq	%rax, 1032(%rbx)
	cmpq	$1023, %rdx
	jb	.LBB33_1434
	movq	%rbx, %rdi
	callq	"std_io::io::buffer::Buffer::flush"
	testb	%al, %al
	je	.LBB33_153
	movq	1032(%rbx), %rax
	movb	$1, %cl
	cmpq	$1023, %rax
	ja	.LBB33_5
.LBB33_1434:
	movb	$101, 4(%rbx,%rax)
	leaq	1(%rax), %rdx
	movq	%rdx, 1032(%rbx)
	cmpq	$1023, %rax
	jb	.LBB33_1437
	movq	%rbx, %rdi
	callq	"std_io::io::buffer::Buffer::flush"
	testb	%al, %al
	je	.LBB33_153
	movq	1032(%rbx), %rdx
	movb	$1, %cl
	cmpq	$1023, %rdx
	ja	.LBB33_5
.LBB33_1437:
	movb	$32, 4(%rbx,%rdx)
	leaq	1(%rdx), %rax
	movq	%rax, 1032(%rbx)
	cmpq	$1023, %rdx
	jb	.LBB33_1440
	movq	%rbx, %rdi
	callq	"std_io::io::buffer::Buffer::flush"
	testb	%al, %al
	je	.LBB33_153
	movq	1032(%rbx), %rax
	movb	$1, %cl
	cmpq	$1023, %rax
	ja	.LBB33_5
.LBB33_1440:
	movb	$98, 4(%rbx,%rax)
	leaq	1(%rax), %rdx
	movq	%rdx, 1032(%rbx)
	cmpq	$1023, %rax
	jb	.LBB33_1443
	movq	%rbx, %rdi
	callq	"std_io::io::buffer::Buffer::flush"
	testb	%al, %al
	je	.LBB33_153
	movq	1032(%rbx), %rdx
	movb	$1, %cl
	cmpq	$1023, %rdx
	ja	.LBB33_5
.LBB33_1443:
	movb	$117, 4(%rbx,%rdx)
	leaq	1(%rdx), %rax
	movq	%rax, 1032(%rbx)
	cmpq	$1023, %rdx
	jb	.LBB33_1446
	movq	%rbx, %rdi
	callq	"std_io::io::buffer::Buffer::flush"
	testb	%al, %al
	je	.LBB33_153
	movq	1032(%rbx), %rax
	movb	$1, %cl
	cmpq	$1023, %rax
	ja	.LBB33_5
.LBB33_1446:
	movb	$115, 4(%rbx,%rax)
	leaq	1(%rax), %rdx
	movq	%rdx, 1032(%rbx)
	cmpq	$1023, %rax
	jb	.LBB33_264
	movq	%rbx, %rdi
	callq	"std_io::io::buffer::Buffer::flush"
	testb	%al, %al
	je	.LBB33_153
.LBB33_1448:
	movq	1032(%rbx), %rdx
	movb	$1, %cl
	cmpq	$1023, %rdx
	ja	.LBB33_5
.LBB33_264:
	movb	$121, 4(%rbx,%rdx)
	jmp	.LBB33_806
.LBB33_1450:
	testq	%rax, %rax
	jne	.LBB33_1684
	movq	1032(%rbx), %rdx
	cmpq	$1024, %rdx
	jb	.LBB33_1454
	movq	%rbx, %rdi
	callq	"std_io::io::buffer::Buffer::flush"
	testb	%al, %al
	je	.LBB33_153
	movq	1032(%rbx), %rdx
	movb	$1, %cl
	cmpq	$1023, %rdx
	ja	.LBB33_5
.LBB33_1454:
	movb	$101, 4(%rbx,%rdx)
	leaq	1(%rdx), %rax
	movq	%rax, 1032(%rbx)
	cmpq	$1023, %rdx
	jne	.LBB33_1457
	movq	%rbx, %rdi
	callq	"std_io::io::buffer::Buffer::flush"
	testb	%al, %al
	je	.LBB33_153
	movq	1032(%rbx), %rax
	movb	$1, %cl
	cmpq	$1023, %rax
	ja	.LBB33_5
.LBB33_1457:
	movb	$120, 4(%rbx,%rax)
	leaq	1(%rax), %rdx
	movq	%rdx, 1032(%rbx)
	cmpq	$1023, %rax
	jb	.LBB33_1460
	movq	%rbx, %rdi
	callq	"std_io::io::buffer::Buffer::flush"
	testb	%al, %al
	je	.LBB33_153
	movq	1032(%rbx), %rdx
	movb	$1, %cl
	cmpq	$1023, %rdx
	ja	.LBB33_5
.LBB33_1460:
	movb	$101, 4(%rbx,%rdx)
	leaq	1(%rdx), %rax
	movq	%rax, 1032(%rbx)
	cmpq	$1023, %rdx
	jb	.LBB33_1463
	movq	%rbx, %rdi
	callq	"std_io::io::buffer::Buffer::flush"
	testb	%al, %al
	je	.LBB33_153
	movq	1032(%rbx), %rax
	movb	$1, %cl
	cmpq	$1023, %rax
	ja	.LBB33_5
.LBB33_1463:
	movb	$99, 4(%rbx,%rax)
	leaq	1(%rax), %rdx
	movq	%rdx, 1032(%rbx)
	cmpq	$1023, %rax
	jb	.LBB33_1466
	movq	%rbx, %rdi
	callq	"std_io::io::buffer::Buffer::flush"
	testb	%al, %al
	je	.LBB33_153
	movq	1032(%rbx), %rdx
	movb	$1, %cl
	cmpq	$1023, %rdx
	ja	.LBB33_5
.LBB33_1466:
	movb	$117, 4(%rbx,%rdx)
	leaq	1(%rdx), %rax
	movq	%rax, 1032(%rbx)
	cmpq	$1023, %rdx
	jb	.LBB33_1469
	movq	%rbx, %rdi
	callq	"std_io::io::buffer::Buffer::flush"
	testb	%al, %al
	je	.LBB33_153
	movq	1032(%rbx), %rax
	movb	$1, %cl
	cmpq	$1023, %rax
	ja	.LBB33_5
.LBB33_1469:
	movb	$116, 4(%rbx,%rax)
	leaq	1(%rax), %rdx
	movq	%rdx, 1032(%rbx)
	cmpq	$1023, %rax
	jb	.LBB33_1472
	movq	%rbx, %rdi
	callq	"std_io::io::buffer::Buffer::flush"
	testb	%al, %al
	je	.LBB33_153
	movq	1032(%rbx), %rdx
	movb	$1, %cl
	cmpq	$1023, %rdx
	ja	.LBB33_5
.LBB33_1472:
	movb	$97, 4(%rbx,%rdx)
	leaq	1(%rdx), %rax
	movq	%rax, 1032(%rbx)
	cmpq	$1023, %rdx
	jb	.LBB33_1475
	movq	%rbx, %rdi
	callq	"std_io::io::buffer::Buffer::flush"
	testb	%al, %al
	je	.LBB33_153
	movq	1032(%rbx), %rax
	movb	$1, %cl
	cmpq	$1023, %rax
	ja	.LBB33_5
.LBB33_1475:
	movb	$98, 4(%rbx,%rax)
	leaq	1(%rax), %rdx
	movq	%rdx, 1032(%rbx)
	cmpq	$1023, %rax
	jb	.LBB33_1478
	movq	%rbx, %rdi
	callq	"std_io::io::buffer::Buffer::flush"
	testb	%al, %al
	je	.LBB33_153
	movq	1032(%rbx), %rdx
	movb	$1, %cl
	cmpq	$1023, %rdx
	ja	.LBB33_5
.LBB33_1478:
	movb	$108, 4(%rbx,%rdx)
	leaq	1(%rdx), %rax
	movq	%rax, 1032(%rbx)
	cmpq	$1023, %rdx
	jb	.LBB33_1481
	movq	%rbx, %rdi
	callq	"std_io::io::buffer::Buffer::flush"
	testb	%al, %al
	je	.LBB33_153
	movq	1032(%rbx), %rax
	movb	$1, %cl
	cmpq	$1023, %rax
	ja	.LBB33_5
.LBB33_1481:
	movb	$101, 4(%rbx,%rax)
	leaq	1(%rax), %rdx
	movq	%rdx, 1032(%rbx)
	cmpq	$1023, %rax
	jb	.LBB33_1484
	movq	%rbx, %rdi
	callq	"std_io::io::buffer::Buffer::flush"
	testb	%al, %al
	je	.LBB33_153
	movq	1032(%rbx), %rdx
	movb	$1, %cl
	cmpq	$1023, %rdx
	ja	.LBB33_5
.LBB33_1484:
	movb	$32, 4(%rbx,%rdx)
	leaq	1(%rdx), %rax
	movq	%rax, 1032(%rbx)
	cmpq	$1023, %rdx
	jb	.LBB33_1487
	movq	%rbx, %rdi
	callq	"std_io::io::buffer::Buffer::flush"
	testb	%al, %al
	je	.LBB33_153
	movq	1032(%rbx), %rax
	movb	$1, %cl
	cmpq	$1023, %rax
	ja	.LBB33_5
.LBB33_1487:
	movb	$102, 4(%rbx,%rax)
	leaq	1(%rax), %rdx
	movq	%rdx, 1032(%rbx)
	cmpq	$1023, %rax
	jb	.LBB33_1490
	movq	%rbx, %rdi
	callq	"std_io::io::buffer::Buffer::flush"
	testb	%al, %al
	je	.LBB33_153
	movq	1032(%rbx), %rdx
	movb	$1, %cl
	cmpq	$1023, %rdx
	ja	.LBB33_5
.LBB33_1490:
	movb	$105, 4(%rbx,%rdx)
	leaq	1(%rdx), %rax
	movq	%rax, 1032(%rbx)
	cmpq	$1023, %rdx
	jb	.LBB33_1493
	movq	%rbx, %rdi
	callq	"std_io::io::buffer::Buffer::flush"
	testb	%al, %al
	je	.LBB33_153
	movq	1032(%rbx), %rax
	movb	$1, %cl
	cmpq	$1023, %rax
	ja	.LBB33_5
.LBB33_1493:
	movb	$108, 4(%rbx,%rax)
	leaq	1(%rax), %rdx
	movq	%rdx, 1032(%rbx)
	cmpq	$1023, %rax
	jb	.LBB33_1496
	movq	%rbx, %rdi
	callq	"std_io::io::buffer::Buffer::flush"
	testb	%al, %al
	je	.LBB33_153
	movq	1032(%rbx), %rdx
	movb	$1, %cl
	cmpq	$1023, %rdx
	ja	.LBB33_5
.LBB33_1496:
	movb	$101, 4(%rbx,%rdx)
	leaq	1(%rdx), %rax
	movq	%rax, 1032(%rbx)
	cmpq	$1023, %rdx
	jb	.LBB33_1499
	movq	%rbx, %rdi
	callq	"std_io::io::buffer::Buffer::flush"
	testb	%al, %al
	je	.LBB33_153
	movq	1032(%rbx), %rax
	movb	$1, %cl
	cmpq	$1023, %rax
	ja	.LBB33_5
.LBB33_1499:
	movb	$32, 4(%rbx,%rax)
	leaq	1(%rax), %rdx
	movq	%rdx, 1032(%rbx)
	cmpq	$1023, %rax
	jb	.LBB33_1502
	movq	%rbx, %rdi
	callq	"std_io::io::buffer::Buffer::flush"
	testb	%al, %al
	je	.LBB33_153
	movq	1032(%rbx), %rdx
	movb	$1, %cl
	cmpq	$1023, %rdx
	ja	.LBB33_5
.LBB33_1502:
	movb	$98, 4(%rbx,%rdx)
	leaq	1(%rdx), %rax
	movq	%rax, 1032(%rbx)
	cmpq	$1023, %rdx
	jb	.LBB33_1505
	movq	%rbx, %rdi
	callq	"std_io::io::buffer::Buffer::flush"
	testb	%al, %al
	je	.LBB33_153
	movq	1032(%rbx), %rax
	movb	$1, %cl
	cmpq	$1023, %rax
	ja	.LBB33_5
.LBB33_1505:
	movb	$117, 4(%rbx,%rax)
	leaq	1(%rax), %rdx
	movq	%rdx, 1032(%rbx)
	cmpq	$1023, %rax
	jb	.LBB33_1508
	movq	%rbx, %rdi
	callq	"std_io::io::buffer::Buffer::flush"
	testb	%al, %al
	je	.LBB33_153
	movq	1032(%rbx), %rdx
	movb	$1, %cl
	cmpq	$1023, %rdx
	ja	.LBB33_5
.LBB33_1508:
	movb	$115, 4(%rbx,%rdx)
	leaq	1(%rdx), %rax
	movq	%rax, 1032(%rbx)
	cmpq	$1023, %rdx
	jb	.LBB33_714
	movq	%rbx, %rdi
	callq	"std_io::io::buffer::Buffer::flush"
	testb	%al, %al
	je	.LBB33_153
	movq	1032(%rbx), %rax
	movb	$1, %cl
	cmpq	$1023, %rax
	jbe	.LBB33_714
	jmp	.LBB33_5
.LBB33_1511:
	testq	%rax, %rax
	jne	.LBB33_1685
	movq	1032(%rbx), %rdx
	cmpq	$1024, %rdx
	jb	.LBB33_1515
	movq	%rbx, %rdi
	callq	"std_io::io::buffer::Buffer::flush"
	testb	%al, %al
	je	.LBB33_110
	movq	1032(%rbx), %rdx
	movb	$1, %cl
	cmpq	$1023, %rdx
	ja	.LBB33_5
.LBB33_1515:
	movb	$111, 4(%rbx,%rdx)
	leaq	1(%rdx), %rax
	movq	%rax, 1032(%rbx)
	cmpq	$1023, %rdx
	jne	.LBB33_1518
	movq	%rbx, %rdi
	callq	"std_io::io::buffer::Buffer::flush"
	testb	%al, %al
	je	.LBB33_110
	movq	1032(%rbx), %rax
	movb	$1, %cl
	cmpq	$1023, %rax
	ja	.LBB33_5
.LBB33_1518:
	movb	$117, 4(%rbx,%rax)
	leaq	1(%rax), %rdx
	movq	%rdx, 1032(%rbx)
	cmpq	$1023, %rax
	jb	.LBB33_1521
	movq	%rbx, %rdi
	callq	"std_io::io::buffer::Buffer::flush"
	testb	%al, %al
	je	.LBB33_110
	movq	1032(%rbx), %rdx
	movb	$1, %cl
	cmpq	$1023, %rdx
	ja	.LBB33_5
.LBB33_1521:
	movb	$116, 4(%rbx,%rdx)
	leaq	1(%rdx), %rax
	movq	%rax, 1032(%rbx)
	cmpq	$1023, %rdx
	jb	.LBB33_1524
	movq	%rbx, %rdi
	callq	"std_io::io::buffer::Buffer::flush"
	testb	%al, %al
	je	.LBB33_110
	movq	1032(%rbx), %rax
	movb	$1, %cl
	cmpq	$1023, %rax
	ja	.LBB33_5
.LBB33_1524:
	movb	$32, 4(%rbx,%rax)
	leaq	1(%rax), %rdx
	movq	%rdx, 1032(%rbx)
	cmpq	$1023, %rax
	jb	.LBB33_1527
	movq	%rbx, %rdi
	callq	"std_io::io::buffer::Buffer::flush"
	testb	%al, %al
	je	.LBB33_110
	movq	1032(%rbx), %rdx
	movb	$1, %cl
	cmpq	$1023, %rdx
	ja	.LBB33_5
.LBB33_1527:
	movb	$111, 4(%rbx,%rdx)
	leaq	1(%rdx), %rax
	movq	%rax, 1032(%rbx)
	cmpq	$1023, %rdx
	jb	.LBB33_1530
	movq	%rbx, %rdi
	callq	"std_io::io::buffer::Buffer::flush"
	testb	%al, %al
	je	.LBB33_110
	movq	1032(%rbx), %rax
	movb	$1, %cl
	cmpq	$1023, %rax
	ja	.LBB33_5
.LBB33_1530:
	movb	$102, 4(%rbx,%rax)
	leaq	1(%rax), %rdx
	movq	%rdx, 1032(%rbx)
	cmpq	$1023, %rax
	jb	.LBB33_1533
	movq	%rbx, %rdi
	callq	"std_io::io::buffer::Buffer::flush"
	testb	%al, %al
	je	.LBB33_110
	movq	1032(%rbx), %rdx
	movb	$1, %cl
	cmpq	$1023, %rdx
	ja	.LBB33_5
.LBB33_1533:
	movb	$32, 4(%rbx,%rdx)
	leaq	1(%rdx), %rax
	movq	%rax, 1032(%rbx)
	cmpq	$1023, %rdx
	jb	.LBB33_1536
	movq	%rbx, %rdi
	callq	"std_io::io::buffer::Buffer::flush"
	testb	%al, %al
	je	.LBB33_110
	movq	1032(%rbx), %rax
	movb	$1, %cl
	cmpq	$1023, %rax
	ja	.LBB33_5
.LBB33_1536:
	movb	$109, 4(%rbx,%rax)
	leaq	1(%rax), %rdx
	movq	%rdx, 1032(%rbx)
	cmpq	$1023, %rax
	jb	.LBB33_1539
	movq	%rbx, %rdi
	callq	"std_io::io::buffer::Buffer::flush"
	testb	%al, %al
	je	.LBB33_110
	movq	1032(%rbx), %rdx
	movb	$1, %cl
	cmpq	$1023, %rdx
	ja	.LBB33_5
.LBB33_1539:
	movb	$101, 4(%rbx,%rdx)
	leaq	1(%rdx), %rax
	movq	%rax, 1032(%rbx)
	cmpq	$1023, %rdx
	jb	.LBB33_1542
	movq	%rbx, %rdi
	callq	"std_io::io::buffer::Buffer::flush"
	testb	%al, %al
	je	.LBB33_110
	movq	1032(%rbx), %rax
	movb	$1, %cl
	cmpq	$1023, %rax
	ja	.LBB33_5
.LBB33_1542:
	movb	$109, 4(%rbx,%rax)
	leaq	1(%rax), %rdx
	movq	%rdx, 1032(%rbx)
	cmpq	$1023, %rax
	jb	.LBB33_1545
	movq	%rbx, %rdi
	callq	"std_io::io::buffer::Buffer::flush"
	testb	%al, %al
	je	.LBB33_110
	movq	1032(%rbx), %rdx
	movb	$1, %cl
	cmpq	$1023, %rdx
	ja	.LBB33_5
.LBB33_1545:
	movb	$111, 4(%rbx,%rdx)
	leaq	1(%rdx), %rax
	movq	%rax, 1032(%rbx)
	cmpq	$1023, %rdx
	jb	.LBB33_1548
	movq	%rbx, %rdi
	callq	"std_io::io::buffer::Buffer::flush"
	testb	%al, %al
	je	.LBB33_110
	movq	1032(%rbx), %rax
	movb	$1, %cl
	cmpq	$1023, %rax
	ja	.LBB33_5
.LBB33_1548:
	movb	$114, 4(%rbx,%rax)
	leaq	1(%rax), %rdx
	movq	%rdx, 1032(%rbx)
	cmpq	$1023, %rax
	jb	.LBB33_1551
	movq	%rbx, %rdi
	callq	"std_io::io::buffer::Buffer::flush"
	testb	%al, %al
	je	.LBB33_110
	movq	1032(%rbx), %rdx
	movb	$1, %cl
	cmpq	$1023, %rdx
	ja	.LBB33_5
.LBB33_1551:
	movb	$121, 4(%rbx,%rdx)
.LBB33_1552:
	incq	%rdx
	movq	%rdx, 1032(%rbx)
	xorl	%ecx, %ecx
	jmp	.LBB33_5
.LBB33_110:
	movb	$1, %cl
	jmp	.LBB33_5
.LBB33_1553:
	testq	%rax, %rax
	jne	.LBB33_1686
	movq	1032(%rbx), %rdx
	cmpq	$1024, %rdx
	jb	.LBB33_1557
	movq	%rbx, %rdi
	callq	"std_io::io::buffer::Buffer::flush"
	testb	%al, %al
	je	.LBB33_153
	movq	1032(%rbx), %rdx
	movb	$1, %cl
	cmpq	$1023, %rdx
	ja	.LBB33_5
.LBB33_1557:
	movb	$113, 4(%rbx,%rdx)
	leaq	1(%rdx), %rax
	movq	%rax, 1032(%rbx)
	cmpq	$1023, %rdx
	jne	.LBB33_1560
	movq	%rbx, %rdi
	callq	"std_io::io::buffer::Buffer::flush"
	testb	%al, %al
	je	.LBB33_153
	movq	1032(%rbx), %rax
	movb	$1, %cl
	cmpq	$1023, %rax
	ja	.LBB33_5
.LBB33_1560:
	movb	$117, 4(%rbx,%rax)
	leaq	1(%rax), %rdx
	movq	%rdx, 1032(%rbx)
	cmpq	$1023, %rax
	jb	.LBB33_1563
	movq	%rbx, %rdi
	callq	"std_io::io::buffer::Buffer::flush"
	testb	%al, %al
	je	.LBB33_153
	movq	1032(%rbx), %rdx
	movb	$1, %cl
	cmpq	$1023, %rdx
	ja	.LBB33_5
.LBB33_1563:
	movb	$111, 4(%rbx,%rdx)
	leaq	1(%rdx), %rax
	movq	%rax, 1032(%rbx)
	cmpq	$1023, %rdx
	jb	.LBB33_1566
	movq	%rbx, %rdi
	callq	"std_io::io::buffer::Buffer::flush"
	testb	%al, %al
	je	.LBB33_153
	movq	1032(%rbx), %rax
	movb	$1, %cl
	cmpq	$1023, %rax
	ja	.LBB33_5
.LBB33_1566:
	movb	$116, 4(%rbx,%rax)
	leaq	1(%rax), %rdx
	movq	%rdx, 1032(%rbx)
	cmpq	$1023, %rax
	jb	.LBB33_1569
	movq	%rbx, %rdi
	callq	"std_io::io::buffer::Buffer::flush"
	testb	%al, %al
	je	.LBB33_153
	movq	1032(%rbx), %rdx
	movb	$1, %cl
	cmpq	$1023, %rdx
	ja	.LBB33_5
.LBB33_1569:
	movb	$97, 4(%rbx,%rdx)
	leaq	1(%rdx), %rax
	movq	%rax, 1032(%rbx)
	cmpq	$1023, %rdx
	jb	.LBB33_1572
	movq	%rbx, %rdi
	callq	"std_io::io::buffer::Buffer::flush"
	testb	%al, %al
	je	.LBB33_153
	movq	1032(%rbx), %rax
	movb	$1, %cl
	cmpq	$1023, %rax
	ja	.LBB33_5
.LBB33_1572:
	movb	$32, 4(%rbx,%rax)
	leaq	1(%rax), %rdx
	movq	%rdx, 1032(%rbx)
	cmpq	$1023, %rax
	jb	.LBB33_1575
	movq	%rbx, %rdi
	callq	"std_io::io::buffer::Buffer::flush"
	testb	%al, %al
	je	.LBB33_153
	movq	1032(%rbx), %rdx
	movb	$1, %cl
	cmpq	$1023, %rdx
	ja	.LBB33_5
.LBB33_1575:
	movb	$101, 4(%rbx,%rdx)
	leaq	1(%rdx), %rax
	movq	%rax, 1032(%rbx)
	cmpq	$1023, %rdx
	jb	.LBB33_1578
	movq	%rbx, %rdi
	callq	"std_io::io::buffer::Buffer::flush"
	testb	%al, %al
	je	.LBB33_153
	movq	1032(%rbx), %rax
	movb	$1, %cl
	cmpq	$1023, %rax
	ja	.LBB33_5
.LBB33_1578:
	movb	$120, 4(%rbx,%rax)
	leaq	1(%rax), %rdx
	movq	%rdx, 1032(%rbx)
	cmpq	$1023, %rax
	jb	.LBB33_1581
	movq	%rbx, %rdi
	callq	"std_io::io::buffer::Buffer::flush"
	testb	%al, %al
	je	.LBB33_153
	movq	1032(%rbx), %rdx
	movb	$1, %cl
	cmpq	$1023, %rdx
	ja	.LBB33_5
.LBB33_1581:
	movb	$99, 4(%rbx,%rdx)
	leaq	1(%rdx), %rax
	movq	%rax, 1032(%rbx)
	cmpq	$1023, %rdx
	jb	.LBB33_1584
	movq	%rbx, %rdi
	callq	"std_io::io::buffer::Buffer::flush"
	testb	%al, %al
	je	.LBB33_153
	movq	1032(%rbx), %rax
	movb	$1, %cl
	cmpq	$1023, %rax
	ja	.LBB33_5
.LBB33_1584:
	movb	$101, 4(%rbx,%rax)
	leaq	1(%rax), %rdx
	movq	%rdx, 1032(%rbx)
	cmpq	$1023, %rax
	jb	.LBB33_1587
	movq	%rbx, %rdi
	callq	"std_io::io::buffer::Buffer::flush"
	testb	%al, %al
	je	.LBB33_153
	movq	1032(%rbx), %rdx
	movb	$1, %cl
	cmpq	$1023, %rdx
	ja	.LBB33_5
.LBB33_1587:
	movb	$101, 4(%rbx,%rdx)
	leaq	1(%rdx), %rax
	movq	%rax, 1032(%rbx)
	cmpq	$1023, %rdx
	jb	.LBB33_1590
	movq	%rbx, %rdi
	callq	"std_io::io::buffer::Buffer::flush"
	testb	%al, %al
	je	.LBB33_153
	movq	1032(%rbx), %rax
	movb	$1, %cl
	cmpq	$1023, %rax
	ja	.LBB33_5
.LBB33_1590:
	movb	$100, 4(%rbx,%rax)
	leaq	1(%rax), %rdx
	movq	%rdx, 1032(%rbx)
	cmpq	$1023, %rax
	jb	.LBB33_1593
	movq	%rbx, %rdi
	callq	"std_io::io::buffer::Buffer::flush"
	testb	%al, %al
	je	.LBB33_153
	movq	1032(%rbx), %rdx
	movb	$1, %cl
	cmpq	$1023, %rdx
	ja	.LBB33_5
.LBB33_1593:
	movb	$101, 4(%rbx,%rdx)
	leaq	1(%rdx), %rax
	movq	%rax, 1032(%rbx)
	cmpq	$1023, %rdx
	jb	.LBB33_1596
	movq	%rbx, %rdi
	callq	"std_io::io::buffer::Buffer::flush"
	testb	%al, %al
	je	.LBB33_153
	movq	1032(%rbx), %rax
	movb	$1, %cl
	cmpq	$1023, %rax
	ja	.LBB33_5
.LBB33_1596:
	movb	$100, 4(%rbx,%rax)
.LBB33_1235:
	incq	%rax
	movq	%rax, 1032(%rbx)
	xorl	%ecx, %ecx
	jmp	.LBB33_5
.LBB33_153:
	movb	$1, %cl
.LBB33_5:
	movl	%ecx, %eax
	popq	%rbx
	popq	%r14
	popq	%rbp
	retq
.LBB33_217:
	movb	$1, %cl
	jmp	.LBB33_5
.LBB33_1643:
	leaq	.Lstatic.155(%rip), %rsi
	movl	$22, %edx
	jmp	.LBB33_1664
.LBB33_1644:
	leaq	.Lstatic.153(%rip), %rsi
	movl	$21, %edx
	jmp	.LBB33_1664
.LBB33_1645:
	leaq	.Lstatic.154(%rip), %rsi
	movl	$11, %edx
	jmp	.LBB33_1664
.LBB33_1646:
	leaq	.Lstatic.145(%rip), %rsi
	movl	$14, %edx
	jmp	.LBB33_1664
.LBB33_1647:
	leaq	.Lstatic.152(%rip), %rsi
	movl	$22, %edx
	jmp	.LBB33_1664
.LBB33_1648:
	leaq	.Lstatic.134(%rip), %rsi
	movl	$19, %edx
	jmp	.LBB33_1664
.LBB33_1649:
	leaq	.Lstatic.132(%rip), %rsi
	movl	$15, %edx
	jmp	.LBB33_1664
.LBB33_1650:
	leaq	.Lstatic.151(%rip), %rsi
	jmp	.LBB33_1663
.LBB33_1651:
	leaq	.Lstatic.129(%rip), %rsi
	movl	$11, %edx
	jmp	.LBB33_1664
.LBB33_1652:
	leaq	.Lstatic.122(%rip), %rsi
	jmp	.LBB33_1663
.LBB33_1653:
	leaq	.Lstatic.157(%rip), %rsi
	movl	$11, %edx
	jmp	.LBB33_1664
.LBB33_1654:
	leaq	.Lstatic.130(%rip), %rsi
	movl	$21, %edx
	jmp	.LBB33_1664
.LBB33_1655:
	leaq	.Lstatic.127(%rip), %rsi
	movl	$21, %edx
	jmp	.LBB33_1664
.LBB33_1656:
	leaq	.Lstatic.143(%rip), %rsi
	movl	$23, %edx
	jmp	.LBB33_1664
.LBB33_1657:
	leaq	.Lstatic.142(%rip), %rsi
	jmp	.LBB33_1663
.LBB33_1658:
	leaq	.Lstatic.120(%rip), %rsi
	movl	$18, %edx
	jmp	.LBB33_1664
.LBB33_1659:
	leaq	.Lstatic.133(%rip), %rsi
	movl	$14, %edx
	jmp	.LBB33_1664
.LBB33_1660:
	leaq	.Lstatic.121(%rip), %rsi
	jmp	.LBB33_1663
.LBB33_1661:
	leaq	.Lstatic.125(%rip), %rsi
	movl	$13, %edx
	jmp	.LBB33_1664
.LBB33_1662:
	leaq	.Lstatic.118(%rip), %rsi
.LBB33_1663:
	movl	$16, %edx
.LBB33_1664:
	movq	%rbx, %rdi
	popq	%rbx
	popq	%r14
	popq	%rbp
	jmp	"core::fmt::formatter::Formatter::write_indented::<#bf264aed5fa78656>"
.LBB33_1665:
	leaq	.Lstatic.119(%rip), %rsi
	movl	$17, %edx
	jmp	.LBB33_1664
.LBB33_1666:
	leaq	.Lstatic.149(%rip), %rsi
	movl	$27, %edx
	jmp	.LBB33_1664
.LBB33_1667:
	leaq	.Lstatic.135(%rip), %rsi
	movl	$38, %edx
	jmp	.LBB33_1664
.LBB33_1668:
	leaq	.Lstatic.158(%rip), %rsi
	movl	$19, %edx
	jmp	.LBB33_1664
.LBB33_1669:
	leaq	.Lstatic.138(%rip), %rsi
	movl	$23, %edx
	jmp	.LBB33_1664
.LBB33_1670:
	leaq	.Lstatic.123(%rip), %rsi
	movl	$19, %edx
	jmp	.LBB33_1664
.LBB33_1671:
	leaq	.Lstatic.139(%rip), %rsi
	movl	$12, %edx
	jmp	.LBB33_1664
.LBB33_1672:
	leaq	.Lstatic.131(%rip), %rsi
	movl	$21, %edx
	jmp	.LBB33_1664
.LBB33_1673:
	leaq	.Lstatic.124(%rip), %rsi
	movl	$18, %edx
	jmp	.LBB33_1664
.LBB33_1674:
	leaq	.Lstatic.136(%rip), %rsi
	movl	$56, %edx
	jmp	.LBB33_1664
.LBB33_1675:
	leaq	.Lstatic.128(%rip), %rsi
	movl	$12, %edx
	jmp	.LBB33_1664
.LBB33_1676:
	leaq	.Lstatic.126(%rip), %rsi
	movl	$14, %edx
	jmp	.LBB33_1664
.LBB33_1677:
	leaq	.Lstatic.148(%rip), %rsi
	movl	$8, %edx
	jmp	.LBB33_1664
.LBB33_1678:
	leaq	.Lstatic.150(%rip), %rsi
	movl	$14, %edx
	jmp	.LBB33_1664
.LBB33_1679:
	leaq	.Lstatic.140(%rip), %rsi
	movl	$9, %edx
	jmp	.LBB33_1664
.LBB33_1680:
	leaq	.Lstatic.156(%rip), %rsi
	movl	$11, %edx
	jmp	.LBB33_1664
.LBB33_1681:
	leaq	.Lstatic.137(%rip), %rsi
	movl	$25, %edx
	jmp	.LBB33_1664
.LBB33_1682:
	leaq	.Lstatic.141(%rip), %rsi
	movl	$10, %edx
	jmp	.LBB33_1664
.LBB33_1683:
	leaq	.Lstatic.146(%rip), %rsi
	movl	$13, %edx
	jmp	.LBB33_1664
.LBB33_1684:
	leaq	.Lstatic.147(%rip), %rsi
	movl	$20, %edx
	jmp	.LBB33_1664
.LBB33_1685:
	leaq	.Lstatic.112(%rip), %rsi
	movl	$13, %edx
	jmp	.LBB33_1664
.LBB33_1686:
	leaq	.Lstatic.144(%rip), %rsi
	movl	$14, %edx
	jmp	.LBB33_1664
.Lfunc_end33:
	.size	"std_io::io::kind::ErrorKindDisplay::fmt::<#bf264aed5fa78656>", .Lfunc_end33-"std_io::io::kind::ErrorKindDisplay::fmt::<#bf264aed5fa78656>"
	.section	".rodata.std_io::io::kind::ErrorKindDisplay::fmt::<#bf264aed5fa78656>","a",@progbits
	.p2align	2, 0x0
.LJTI33_0:
	.long	.LBB33_1-.LJTI33_0
	.long	.LBB33_807-.LJTI33_0
	.long	.LBB33_618-.LJTI33_0
	.long	.LBB33_715-.LJTI33_0
	.long	.LBB33_350-.LJTI33_0
	.long	.LBB33_933-.LJTI33_0
	.long	.LBB33_1095-.LJTI33_0
	.long	.LBB33_765-.LJTI33_0
	.long	.LBB33_1191-.LJTI33_0
	.long	.LBB33_500-.LJTI33_0
	.long	.LBB33_1153-.LJTI33_0
	.long	.LBB33_315-.LJTI33_0
	.long	.LBB33_435-.LJTI33_0
	.long	.LBB33_1030-.LJTI33_0
	.long	.LBB33_218-.LJTI33_0
	.long	.LBB33_671-.LJTI33_0
	.long	.LBB33_160-.LJTI33_0
	.long	.LBB33_866-.LJTI33_0
	.long	.LBB33_1147-.LJTI33_0
	.long	.LBB33_1371-.LJTI33_0
	.long	.LBB33_927-.LJTI33_0
	.long	.LBB33_992-.LJTI33_0
	.long	.LBB33_1307-.LJTI33_0
	.long	.LBB33_1377-.LJTI33_0
	.long	.LBB33_568-.LJTI33_0
	.long	.LBB33_562-.LJTI33_0
	.long	.LBB33_1553-.LJTI33_0
	.long	.LBB33_111-.LJTI33_0
	.long	.LBB33_1409-.LJTI33_0
	.long	.LBB33_1450-.LJTI33_0
	.long	.LBB33_1236-.LJTI33_0
	.long	.LBB33_860-.LJTI33_0
	.long	.LBB33_1263-.LJTI33_0
	.long	.LBB33_265-.LJTI33_0
	.long	.LBB33_154-.LJTI33_0
	.long	.LBB33_12-.LJTI33_0
	.long	.LBB33_77-.LJTI33_0
	.long	.LBB33_6-.LJTI33_0
	.long	.LBB33_1511-.LJTI33_0
	.long	.LBB33_1336-.LJTI33_0
	.long	.LBB33_400-.LJTI33_0
	.long	.LBB33_872-.LJTI33_0

	.section	.rodata.cst16,"aM",@progbits,16
	.p2align	4, 0x0
.LCPI34_0:
	.byte	114
	.byte	101
	.byte	97
	.byte	100
	.zero	1
	.zero	1
	.zero	1
	.zero	1
	.zero	1
	.zero	1
	.zero	1
	.zero	1
	.zero	1
	.zero	1
	.zero	1
	.zero	1
.LCPI34_1:
	.byte	119
	.byte	114
	.byte	105
	.byte	116
	.zero	1
	.zero	1
	.zero	1
	.zero	1
	.zero	1
	.zero	1
	.zero	1
	.zero	1
	.zero	1
	.zero	1
	.zero	1
	.zero	1
.LCPI34_2:
	.byte	16
	.byte	15
	.byte	14
	.byte	13
	.byte	12
	.byte	11
	.byte	10
	.byte	9
	.byte	8
	.byte	7
	.byte	6
	.byte	5
	.byte	4
	.byte	3
	.byte	2
	.byte	1
.LCPI34_3:
	.byte	0
	.byte	1
	.byte	2
	.byte	3
	.byte	4
	.byte	5
	.byte	6
	.byte	7
	.byte	8
	.byte	9
	.byte	10
	.byte	11
	.byte	12
	.byte	13
	.byte	14
	.byte	15
.LCPI34_4:
	.byte	16
	.byte	17
	.byte	18
	.byte	19
	.byte	20
	.byte	21
	.byte	22
	.byte	23
	.byte	24
	.byte	25
	.byte	26
	.byte	27
	.byte	28
	.byte	29
	.byte	30
	.byte	31
	.section	.text.main,"ax",@progbits
	.p2align	4
	.type	main,@function
main:
	pushq	%rbp
	pushq	%r15
	pushq	%r14
	pushq	%r13
	pushq	%r12
	pushq	%rbx
	subq	$3072, %rsp
	movq	$0, (%rsp)
	subq	$2440, %rsp
	movl	$1, %esi
	movl	$13, %edi
	callq	__sysv_signal@PLT
	movb	$0, 32(%rsp)
	pxor	%xmm0, %xmm0
	movdqa	%xmm0, 64(%rsp)
	movdqa	%xmm0, 80(%rsp)
	movq	$0, 96(%rsp)
	leaq	31(%rsp), %rax
	movq	%rax, 104(%rsp)
	movdqa	%xmm0, 112(%rsp)
	movdqa	%xmm0, 128(%rsp)
	movdqa	%xmm0, 144(%rsp)
	movq	$0, 160(%rsp)
	leaq	168(%rsp), %rbp
	movq	%rax, 168(%rsp)
	movdqa	%xmm0, 176(%rsp)
	movdqa	%xmm0, 192(%rsp)
	leaq	1416(%rsp), %rdi
	xorl	%r12d, %r12d
	movl	$4096, %edx
	xorl	%esi, %esi
	callq	memset@PLT
.LBB34_1:
	leaq	1416(%rsp), %r15
	movl	$4096, %edx
	xorl	%edi, %edi
	movq	%r15, %rsi
	callq	read@PLT
	testq	%rax, %rax
	js	.LBB34_64
	je	.LBB34_72
	cmpq	$4096, %rax
	movl	$4096, %r14d
	cmovbq	%rax, %r14
	movzbl	200(%rsp), %ecx
	testl	%ecx, %ecx
	jne	.LBB34_56
	pxor	%xmm0, %xmm0
	movdqa	%xmm0, 400(%rsp)
	movdqa	%xmm0, 384(%rsp)
	movdqa	%xmm0, 368(%rsp)
	movdqa	%xmm0, 352(%rsp)
	movdqa	%xmm0, 336(%rsp)
	movdqa	%xmm0, 320(%rsp)
	movdqa	%xmm0, 304(%rsp)
	movdqa	%xmm0, 288(%rsp)
	movdqa	%xmm0, 272(%rsp)
	movq	112(%rsp), %r13
	cmpq	$1, %rax
	jne	.LBB34_7
	movzbl	1416(%rsp), %ebx
	cmpq	%r13, 120(%rsp)
	je	.LBB34_52
.LBB34_6:
	movq	104(%rsp), %rax
	movb	%bl, (%rax,%r13)
	incq	%r13
	movq	%r13, 112(%rsp)
	jmp	.LBB34_30
	.p2align	4
.LBB34_7:
	movq	120(%rsp), %rbp
	movq	%rbp, %rcx
	subq	%r13, %rcx
	cmpq	%rcx, %r14
	ja	.LBB34_54
.LBB34_8:
	movq	104(%rsp), %rbx
	leaq	(%rbx,%r13), %rdi
	movq	%rdi, %rcx
	subq	%r15, %rcx
	cmpq	%r14, %rcx
	jae	.LBB34_11
	cmpq	$4, %rax
	jb	.LBB34_10
	movq	%r13, %rcx
	subq	%r15, %rcx
	addq	%rbx, %rcx
	cmpq	$32, %rcx
	jae	.LBB34_14
.LBB34_10:
	xorl	%eax, %eax
.LBB34_23:
	movq	%r14, %rdx
	movq	%rax, %rcx
	andq	$3, %rdx
	je	.LBB34_26
	movq	%rax, %rcx
	.p2align	4
.LBB34_25:
	movzbl	1416(%rsp,%rcx), %esi
	movb	%sil, (%rdi,%rcx)
	incq	%rcx
	decq	%rdx
	jne	.LBB34_25
.LBB34_26:
	subq	%r14, %rax
	cmpq	$-4, %rax
	ja	.LBB34_29
	leaq	(%rbx,%r13), %rax
	addq	$3, %rax
	.p2align	4
.LBB34_28:
	movzbl	1416(%rsp,%rcx), %edx
	movb	%dl, -3(%rax,%rcx)
	movzbl	1417(%rsp,%rcx), %edx
	movb	%dl, -2(%rax,%rcx)
	movzbl	1418(%rsp,%rcx), %edx
	movb	%dl, -1(%rax,%rcx)
	movzbl	1419(%rsp,%rcx), %edx
	movb	%dl, (%rax,%rcx)
	addq	$4, %rcx
	cmpq	%rcx, %r14
	jne	.LBB34_28
	jmp	.LBB34_29
	.p2align	4
.LBB34_11:
	leaq	1416(%rsp), %rsi
	movq	%r14, %rdx
	callq	memmove@PLT
.LBB34_29:
	addq	%r14, %r13
	movq	%rbx, 104(%rsp)
	movq	%r13, 112(%rsp)
	movq	%rbp, 120(%rsp)
	leaq	168(%rsp), %rbp
.LBB34_30:
	movq	128(%rsp), %rcx
	movq	%r13, %rax
	subq	%rcx, %rax
	cmpq	%rcx, %rax
	jae	.LBB34_48
	cmpq	%rcx, %r13
	je	.LBB34_46
	movq	104(%rsp), %rdx
	cmpq	$4, %rax
	setb	%sil
	leaq	31(%rcx), %rdi
	cmpq	$32, %rdi
	setb	%dil
	orb	%sil, %dil
	je	.LBB34_34
	xorl	%esi, %esi
	jmp	.LBB34_43
.LBB34_34:
	cmpq	$32, %rax
	jae	.LBB34_36
	xorl	%esi, %esi
	jmp	.LBB34_40
.LBB34_14:
	cmpq	$32, %rax
	jae	.LBB34_16
	xorl	%eax, %eax
	jmp	.LBB34_20
.LBB34_36:
	movq	%rax, %rsi
	andq	$-32, %rsi
	leaq	16(%rdx), %rdi
	movq	%rsi, %r8
	.p2align	4
.LBB34_37:
	movdqu	-16(%rdi,%rcx), %xmm0
	movdqu	(%rdi,%rcx), %xmm1
	movdqu	%xmm0, -16(%rdi)
	movdqu	%xmm1, (%rdi)
	addq	$32, %rdi
	addq	$-32, %r8
	jne	.LBB34_37
	cmpq	%rsi, %rax
	je	.LBB34_45
	testb	$28, %al
	je	.LBB34_43
.LBB34_40:
	movq	%rsi, %rdi
	movq	%rax, %rsi
	andq	$-4, %rsi
	leaq	(%rdx,%rdi), %r8
	subq	%rsi, %rdi
	.p2align	4
.LBB34_41:
	movl	(%r8,%rcx), %r9d
	movl	%r9d, (%r8)
	addq	$4, %r8
	addq	$4, %rdi
	jne	.LBB34_41
	cmpq	%rsi, %rax
	je	.LBB34_45
.LBB34_43:
	subq	%rsi, %r13
	addq	%rsi, %rdx
	.p2align	4
.LBB34_44:
	movzbl	(%rdx,%rcx), %esi
	movb	%sil, (%rdx)
	decq	%r13
	incq	%rdx
	cmpq	%r13, %rcx
	jne	.LBB34_44
.LBB34_45:
	cmpq	%rax, 112(%rsp)
	jbe	.LBB34_47
.LBB34_46:
	movq	%rax, 112(%rsp)
.LBB34_47:
	movq	$0, 128(%rsp)
.LBB34_48:
	movq	$0, 152(%rsp)
	leaq	272(%rsp), %rdi
	leaq	64(%rsp), %rsi
	leaq	32(%rsp), %rcx
	movq	%rbp, %rdx
	callq	"unftp_control_serve::engine::answer_lines::<#2e66f6333061c70c>"
	cmpb	$0, 272(%rsp)
	jne	.LBB34_77
	movq	112(%rsp), %rax
	movq	%rax, %rcx
	subq	128(%rsp), %rcx
	movzbl	273(%rsp), %edx
	addq	160(%rsp), %rcx
	movq	$-1, %rsi
	cmovaeq	%rcx, %rsi
	movq	%rsi, 192(%rsp)
	cmpb	$1, %dl
	je	.LBB34_78
	cmpb	$1, 200(%rsp)
	je	.LBB34_72
	incq	%r12
	cmpq	$-1, %r12
	jne	.LBB34_1
	jmp	.LBB34_81
.LBB34_16:
	movl	%r14d, %eax
	andl	$8160, %eax
	leaq	(%rbx,%r13), %rcx
	addq	$16, %rcx
	xorl	%edx, %edx
	.p2align	4
.LBB34_17:
	movdqu	1416(%rsp,%rdx), %xmm0
	movdqu	1432(%rsp,%rdx), %xmm1
	movdqu	%xmm0, -16(%rcx,%rdx)
	movdqu	%xmm1, (%rcx,%rdx)
	addq	$32, %rdx
	cmpq	%rdx, %rax
	jne	.LBB34_17
	cmpq	%rax, %r14
	je	.LBB34_29
	testb	$28, %r14b
	je	.LBB34_23
.LBB34_20:
	movq	%rax, %rcx
	movl	%r14d, %eax
	andl	$8188, %eax
	.p2align	4
.LBB34_21:
	movl	1416(%rsp,%rcx), %edx
	movl	%edx, (%rdi,%rcx)
	addq	$4, %rcx
	cmpq	%rcx, %rax
	jne	.LBB34_21
	cmpq	%rax, %r14
	je	.LBB34_29
	jmp	.LBB34_23
.LBB34_52:
	leaq	104(%rsp), %rdi
	movl	$1, %esi
	callq	"std_alloc::vec::Vec::grow_amortized::<#0664299079b05c43>"
	testb	%al, %al
	je	.LBB34_131
	movq	112(%rsp), %r13
	leaq	168(%rsp), %rbp
	jmp	.LBB34_6
.LBB34_54:
	movq	%rax, %rbx
	leaq	104(%rsp), %rdi
	movq	%r14, %rsi
	callq	"std_alloc::vec::Vec::grow_amortized::<#0664299079b05c43>"
	testb	%al, %al
	je	.LBB34_131
	movq	112(%rsp), %r13
	movq	120(%rsp), %rbp
	movq	%rbx, %rax
	jmp	.LBB34_8
.LBB34_56:
	cmpl	$2, %ecx
	jne	.LBB34_71
	pxor	%xmm0, %xmm0
	movdqa	%xmm0, 208(%rsp)
	movb	$5, %r15b
.LBB34_58:
	xorl	%r13d, %r13d
	xorl	%r12d, %r12d
	xorl	%ebx, %ebx
	movdqa	%xmm0, 240(%rsp)
	movdqa	%xmm0, 224(%rsp)
	movdqa	%xmm0, 256(%rsp)
	cmpq	$0, 120(%rsp)
	je	.LBB34_60
.LBB34_59:
	movq	104(%rsp), %rdi
	callq	rattle_dealloc@PLT
.LBB34_60:
	cmpq	$0, 184(%rsp)
	je	.LBB34_62
	movq	168(%rsp), %rdi
	callq	rattle_dealloc@PLT
.LBB34_62:
	cmpb	$2, %r15b
	jb	.LBB34_69
	movq	%rbx, 224(%rsp)
	movq	%r12, 16(%rsp)
	pshufd	$238, 208(%rsp), %xmm0
	movq	%xmm0, 240(%rsp)
	jmp	.LBB34_86
.LBB34_64:
	callq	rattle_errno@PLT
	leaq	272(%rsp), %rdi
	movl	%eax, %esi
	callq	"std_io::io::error::Error::from_raw_os_error"
	movq	272(%rsp), %r12
	movq	280(%rsp), %rbx
	movups	288(%rsp), %xmm0
	movaps	%xmm0, 208(%rsp)
	movups	304(%rsp), %xmm0
	movaps	%xmm0, 240(%rsp)
	movups	320(%rsp), %xmm0
	movaps	%xmm0, 224(%rsp)
	movdqu	336(%rsp), %xmm0
	movdqa	%xmm0, 256(%rsp)
	movq	352(%rsp), %r13
	cmpq	$0, 120(%rsp)
	je	.LBB34_66
	movq	104(%rsp), %rdi
	callq	rattle_dealloc@PLT
.LBB34_66:
	cmpq	$0, 184(%rsp)
	je	.LBB34_68
	movq	168(%rsp), %rdi
	callq	rattle_dealloc@PLT
.LBB34_68:
	xorl	%r15d, %r15d
.LBB34_69:
	movq	%r12, %r14
	shrq	$32, %r14
	movl	$2, 1416(%rsp)
	leaq	1448(%rsp), %rdi
	movl	$1104, %edx
	xorl	%esi, %esi
	callq	memset@PLT
	movl	$32, 2552(%rsp)
	movq	$0, 2556(%rsp)
	movl	$0, 2564(%rsp)
	movq	$-1, 2568(%rsp)
	pxor	%xmm0, %xmm0
	movdqu	%xmm0, 2576(%rsp)
	movl	2552(%rsp), %eax
	movl	%eax, 32(%rsp)
	movq	2556(%rsp), %rax
	movq	%rax, 36(%rsp)
	movl	2564(%rsp), %eax
	movl	%eax, 44(%rsp)
	movq	$-1, 48(%rsp)
	movabsq	$6875993268458254179, %rax
	movq	%rax, 1420(%rsp)
	movl	$1869440356, 1428(%rsp)
	movw	$8250, 1432(%rsp)
	movzbl	%r15b, %eax
	movd	%eax, %xmm1
	punpcklbw	%xmm1, %xmm1
	pshuflw	$0, %xmm1, %xmm1
	psllw	$7, %xmm1
	pxor	%xmm2, %xmm2
	pcmpgtb	%xmm1, %xmm2
	movdqa	%xmm2, %xmm1
	pandn	.LCPI34_0(%rip), %xmm1
	pand	.LCPI34_1(%rip), %xmm2
	por	%xmm1, %xmm2
	movd	%xmm2, 1434(%rsp)
	movabsq	$7811882119909043817, %rax
	movq	%rax, 1438(%rsp)
	movl	$540697701, 1446(%rsp)
	movq	$30, 2448(%rsp)
	movl	$32, 2552(%rsp)
	movl	$0, 2564(%rsp)
	movq	$0, 2556(%rsp)
	movdqa	%xmm0, 512(%rsp)
	movdqa	%xmm0, 496(%rsp)
	movdqa	%xmm0, 480(%rsp)
	movdqa	%xmm0, 464(%rsp)
	movdqa	%xmm0, 448(%rsp)
	movdqa	%xmm0, 432(%rsp)
	movdqa	%xmm0, 416(%rsp)
	movdqa	%xmm0, 400(%rsp)
	movdqa	%xmm0, 384(%rsp)
	movdqa	%xmm0, 368(%rsp)
	movdqa	%xmm0, 352(%rsp)
	movdqa	%xmm0, 336(%rsp)
	movdqa	%xmm0, 320(%rsp)
	movdqa	%xmm0, 304(%rsp)
	movdqa	%xmm0, 288(%rsp)
	movdqa	%xmm0, 272(%rsp)
	testb	%r12b, %r12b
	je	.LBB34_101
	movl	%r12d, %eax
	shrl	$16, %eax
	movq	%rbx, 272(%rsp)
	movaps	208(%rsp), %xmm0
	movups	%xmm0, 280(%rsp)
	movaps	240(%rsp), %xmm0
	movups	%xmm0, 296(%rsp)
	movaps	224(%rsp), %xmm0
	movups	%xmm0, 312(%rsp)
	movdqa	256(%rsp), %xmm0
	movdqu	%xmm0, 328(%rsp)
	movq	%r13, 344(%rsp)
	movzbl	%al, %edx
	jmp	.LBB34_107
.LBB34_71:
	addq	192(%rsp), %r14
	movq	$-1, %rax
	cmovaeq	%r14, %rax
	movq	%rax, 192(%rsp)
.LBB34_72:
	cmpq	$0, 120(%rsp)
	je	.LBB34_74
.LBB34_73:
	movq	104(%rsp), %rdi
	callq	rattle_dealloc@PLT
.LBB34_74:
	cmpq	$0, 184(%rsp)
	je	.LBB34_76
	movq	168(%rsp), %rdi
	callq	rattle_dealloc@PLT
.LBB34_76:
	xorl	%eax, %eax
	jmp	.LBB34_191
.LBB34_77:
	movzbl	280(%rsp), %r15d
	movb	$2, 200(%rsp)
	movq	288(%rsp), %r12
	movq	296(%rsp), %rbx
	movaps	304(%rsp), %xmm0
	movaps	%xmm0, 208(%rsp)
	movaps	320(%rsp), %xmm0
	movaps	%xmm0, 240(%rsp)
	movaps	336(%rsp), %xmm0
	movaps	%xmm0, 224(%rsp)
	movdqa	352(%rsp), %xmm0
	movdqa	%xmm0, 256(%rsp)
	movq	368(%rsp), %r13
	cmpq	$0, 120(%rsp)
	jne	.LBB34_59
	jmp	.LBB34_60
.LBB34_78:
	movb	$0, 96(%rsp)
	pxor	%xmm0, %xmm0
	movdqa	%xmm0, 64(%rsp)
	testq	%rax, %rax
	je	.LBB34_80
	movq	$0, 112(%rsp)
.LBB34_80:
	movdqu	%xmm0, -24(%rbp)
	movdqu	%xmm0, -40(%rbp)
	movq	$0, -8(%rbp)
	movb	$1, 200(%rsp)
	cmpq	$0, 120(%rsp)
	jne	.LBB34_73
	jmp	.LBB34_74
.LBB34_81:
	cmpq	$0, 120(%rsp)
	je	.LBB34_83
	movq	104(%rsp), %rdi
	callq	rattle_dealloc@PLT
.LBB34_83:
	cmpq	$0, 184(%rsp)
	je	.LBB34_85
	movq	168(%rsp), %rdi
	callq	rattle_dealloc@PLT
.LBB34_85:
	movb	$6, %r15b
	movq	$0, 16(%rsp)
	movq	$0, 224(%rsp)
	movq	$0, 240(%rsp)
.LBB34_86:
	movl	$2, 1416(%rsp)
	leaq	1420(%rsp), %r14
	leaq	1432(%rsp), %rdi
	xorl	%ebp, %ebp
	movl	$1120, %edx
	xorl	%esi, %esi
	callq	memset@PLT
	movl	$32, 2552(%rsp)
	movq	$0, 2556(%rsp)
	movl	$0, 2564(%rsp)
	movq	$-1, 2568(%rsp)
	pxor	%xmm0, %xmm0
	movdqu	%xmm0, 2576(%rsp)
	movl	2552(%rsp), %eax
	movl	%eax, 272(%rsp)
	movq	2556(%rsp), %rax
	movq	%rax, 276(%rsp)
	movl	2564(%rsp), %eax
	movl	%eax, 284(%rsp)
	movq	$-1, 288(%rsp)
	movabsq	$6875993268458254179, %rax
	movq	%rax, 1420(%rsp)
	movl	$1869440356, 1428(%rsp)
	movw	$8250, 1432(%rsp)
	movq	$14, 2448(%rsp)
	movl	$32, 2552(%rsp)
	movq	$0, 2556(%rsp)
	movl	$0, 2564(%rsp)
	movq	%r15, 208(%rsp)
	leal	-2(%r15), %eax
	leaq	.Lswitch.table.main(%rip), %rcx
	movzbl	%al, %eax
	movq	(%rcx,%rax,8), %rbx
	leaq	.Lswitch.table.main.207.rel(%rip), %r13
	movslq	(%r13,%rax,4), %r12
	movl	$14, %ecx
	jmp	.LBB34_88
	.p2align	4
.LBB34_87:
	movb	%r15b, 1420(%rsp,%rax)
	leaq	1(%rax), %rcx
	movq	%rcx, 2448(%rsp)
	incq	%rbp
	cmpq	%rbp, %rbx
	je	.LBB34_92
.LBB34_88:
	leaq	(%r12,%rbp), %rax
	movzbl	(%r13,%rax), %r15d
	movq	%rcx, %rax
	cmpq	$1024, %rcx
	jb	.LBB34_87
	leaq	1416(%rsp), %rdi
	callq	"std_io::io::buffer::Buffer::flush"
	testb	%al, %al
	je	.LBB34_91
	movq	2448(%rsp), %rax
	cmpq	$1023, %rax
	jbe	.LBB34_87
.LBB34_91:
	movq	288(%rsp), %rax
	movq	%rax, 1148(%r14)
	movaps	272(%rsp), %xmm0
	movups	%xmm0, 1132(%r14)
	movq	16(%rsp), %rbx
	jmp	.LBB34_97
.LBB34_92:
	movq	288(%rsp), %rdx
	movq	%rdx, 1148(%r14)
	movaps	272(%rsp), %xmm0
	movups	%xmm0, 1132(%r14)
	cmpq	$0, 2576(%rsp)
	movq	1148(%r14), %rdx
	movq	%rdx, 288(%rsp)
	movups	1132(%r14), %xmm0
	movaps	%xmm0, 272(%rsp)
	movl	$32, 2552(%rsp)
	movl	$0, 1144(%r14)
	movq	$0, 1136(%r14)
	movq	$-1, 2568(%rsp)
	jne	.LBB34_130
	cmpq	$1023, %rax
	movq	16(%rsp), %rbx
	jb	.LBB34_95
	leaq	1416(%rsp), %rdi
	callq	"std_io::io::buffer::Buffer::flush"
	movq	2448(%rsp), %rcx
	cmpq	$1024, %rcx
	setb	%dl
	andb	%al, %dl
	cmpb	$1, %dl
	jne	.LBB34_96
.LBB34_95:
	movb	$10, 1420(%rsp,%rcx)
	incq	%rcx
	movq	%rcx, 2448(%rsp)
.LBB34_96:
	movq	288(%rsp), %rax
	movq	%rax, 1148(%r14)
	movdqa	272(%rsp), %xmm0
	movdqu	%xmm0, 1132(%r14)
.LBB34_97:
	movq	208(%rsp), %r15
	movl	1416(%rsp), %eax
	movl	%eax, 272(%rsp)
	leaq	276(%rsp), %rdi
	movl	$1132, %edx
	movq	%r14, %rsi
	callq	memcpy@PLT
	leaq	272(%rsp), %rdi
	callq	"std_io::io::buffer::Buffer::flush"
	movl	$1, %eax
	cmpb	$3, %r15b
	jne	.LBB34_191
	cmpb	$6, %bl
	jne	.LBB34_191
	cmpq	$0, 240(%rsp)
	je	.LBB34_191
	movq	224(%rsp), %rdi
	callq	rattle_dealloc@PLT
	jmp	.LBB34_190
.LBB34_101:
	leaq	272(%rsp), %rsi
	movl	$256, %edx
	movl	%r14d, %edi
	callq	__xpg_strerror_r@PLT
	movq	$-16, %rcx
	.p2align	4
.LBB34_102:
	movdqu	288(%rsp,%rcx), %xmm0
	pxor	%xmm1, %xmm1
	pcmpeqb	%xmm0, %xmm1
	pmovmskb	%xmm1, %edx
	leaq	16(%rcx), %rax
	testl	%edx, %edx
	jne	.LBB34_104
	cmpq	$224, %rcx
	movq	%rax, %rcx
	jne	.LBB34_102
.LBB34_104:
	testw	%dx, %dx
	je	.LBB34_106
	pxor	%xmm1, %xmm1
	pcmpeqb	%xmm1, %xmm0
	pand	.LCPI34_2(%rip), %xmm0
	movdqa	%xmm0, (%rsp)
	movzbl	1(%rsp), %ecx
	movl	(%rsp), %edx
	cmpb	%cl, %dl
	cmoval	%edx, %ecx
	movzbl	2(%rsp), %edx
	cmpb	%dl, %cl
	cmovbel	%edx, %ecx
	movl	4(%rsp), %edx
	movzbl	3(%rsp), %esi
	cmpb	%sil, %cl
	cmovbel	%esi, %ecx
	cmpb	%dl, %cl
	cmovbel	%edx, %ecx
	movzbl	5(%rsp), %edx
	cmpb	%dl, %cl
	cmovbel	%edx, %ecx
	movzbl	6(%rsp), %edx
	cmpb	%dl, %cl
	cmovbel	%edx, %ecx
	movzbl	7(%rsp), %edx
	cmpb	%dl, %cl
	cmovbel	%edx, %ecx
	movl	8(%rsp), %edx
	cmpb	%dl, %cl
	cmovbel	%edx, %ecx
	movzbl	9(%rsp), %edx
	cmpb	%dl, %cl
	cmovbel	%edx, %ecx
	movzbl	10(%rsp), %edx
	cmpb	%dl, %cl
	cmovbel	%edx, %ecx
	movzbl	11(%rsp), %edx
	cmpb	%dl, %cl
	cmovbel	%edx, %ecx
	movl	12(%rsp), %edx
	cmpb	%dl, %cl
	cmovbel	%edx, %ecx
	movzbl	13(%rsp), %edx
	cmpb	%dl, %cl
	cmovbel	%edx, %ecx
	movzbl	14(%rsp), %edx
	cmpb	%dl, %cl
	cmovbel	%edx, %ecx
	movzbl	15(%rsp), %edx
	cmpb	%dl, %cl
	cmovbel	%edx, %ecx
	movb	$16, %dl
	subb	%cl, %dl
	movzbl	%dl, %edx
	addq	%rax, %rdx
	jmp	.LBB34_107
.LBB34_106:
	movl	$256, %edx
.LBB34_107:
	leaq	1420(%rsp), %rbx
	pxor	%xmm0, %xmm0
	movdqa	%xmm0, 64(%rsp)
	movq	$0, 80(%rsp)
	leaq	64(%rsp), %rdi
	leaq	272(%rsp), %rsi
	callq	"core::str::utf8::from_utf8"
	xorl	%edx, %edx
	cmpb	$0, 64(%rsp)
	leaq	.Lstatic.2(%rip), %r15
	cmoveq	72(%rsp), %r15
	movq	80(%rsp), %r13
	cmoveq	%r13, %rdx
	cmpb	$1, %r12b
	je	.LBB34_116
	movzbl	%r12b, %eax
	testl	%eax, %eax
	jne	.LBB34_119
	movl	$32, 2552(%rsp)
	movl	$0, 1144(%rbx)
	movq	$0, 1136(%rbx)
	movq	$-1, 2568(%rsp)
	cmpq	$0, 2576(%rsp)
	movq	%r12, 16(%rsp)
	jne	.LBB34_132
	movq	2448(%rsp), %rcx
	testq	%rdx, %rdx
	je	.LBB34_135
	xorl	%r12d, %r12d
	jmp	.LBB34_113
	.p2align	4
.LBB34_112:
	movb	%bpl, 1420(%rsp,%rcx)
	incq	%rcx
	movq	%rcx, 2448(%rsp)
	incq	%r12
	cmpq	%r12, %r13
	je	.LBB34_133
.LBB34_113:
	movzbl	(%r15,%r12), %ebp
	cmpq	$1024, %rcx
	jb	.LBB34_112
	leaq	1416(%rsp), %rdi
	callq	"std_io::io::buffer::Buffer::flush"
	testb	%al, %al
	je	.LBB34_187
	movq	2448(%rsp), %rcx
	cmpq	$1023, %rcx
	jbe	.LBB34_112
	jmp	.LBB34_187
.LBB34_116:
	shrq	$8, %r12
	movaps	.LCPI34_3(%rip), %xmm0
	movaps	%xmm0, 64(%rsp)
	movdqa	.LCPI34_4(%rip), %xmm0
	movdqa	%xmm0, 80(%rsp)
	movabsq	$2820983053732684064, %rax
	movq	%rax, 96(%rsp)
	movb	$40, 104(%rsp)
	movb	$41, %al
	cmpb	$40, %r12b
	ja	.LBB34_118
	andl	$63, %r12d
	movzbl	64(%rsp,%r12), %eax
.LBB34_118:
	movzbl	%al, %edi
	leaq	1416(%rsp), %rsi
	callq	"std_io::io::kind::ErrorKindDisplay::fmt::<#bf264aed5fa78656>"
	jmp	.LBB34_129
.LBB34_119:
	cmpq	$0, 2560(%rsp)
	jne	.LBB34_128
	cmpq	2568(%rsp), %rdx
	ja	.LBB34_128
	cmpq	$0, 2576(%rsp)
	jne	.LBB34_158
	testq	%rdx, %rdx
	je	.LBB34_174
	movq	2448(%rsp), %rax
	xorl	%r14d, %r14d
	jmp	.LBB34_125
	.p2align	4
.LBB34_124:
	movb	%bpl, 1420(%rsp,%rax)
	incq	%rax
	movq	%rax, 2448(%rsp)
	incq	%r14
	cmpq	%r14, %r13
	je	.LBB34_174
.LBB34_125:
	movzbl	(%r15,%r14), %ebp
	cmpq	$1024, %rax
	jb	.LBB34_124
	leaq	1416(%rsp), %rdi
	callq	"std_io::io::buffer::Buffer::flush"
	testb	%al, %al
	je	.LBB34_187
	movq	2448(%rsp), %rax
	cmpq	$1023, %rax
	jbe	.LBB34_124
	jmp	.LBB34_187
.LBB34_128:
	leaq	1416(%rsp), %rdi
	movq	%r15, %rsi
	callq	"core::fmt::formatter::Formatter::cut_and_fill::<#bf264aed5fa78656>"
.LBB34_129:
	movq	48(%rsp), %rcx
	movq	%rcx, 1148(%rbx)
	movdqa	32(%rsp), %xmm0
	movdqu	%xmm0, 1132(%rbx)
	testb	%al, %al
	jne	.LBB34_189
	jmp	.LBB34_175
.LBB34_130:
	leaq	.Lstatic.45(%rip), %rsi
	leaq	1416(%rsp), %rdi
	movl	$1, %edx
	callq	"core::fmt::formatter::Formatter::write_indented::<#bf264aed5fa78656>"
	movq	16(%rsp), %rbx
	jmp	.LBB34_96
.LBB34_131:
	movb	$2, 200(%rsp)
	pxor	%xmm0, %xmm0
	movdqa	%xmm0, 208(%rsp)
	movb	$4, %r15b
	jmp	.LBB34_58
.LBB34_132:
	leaq	1416(%rsp), %rdi
	movq	%r15, %rsi
	callq	"core::fmt::formatter::Formatter::write_indented::<#bf264aed5fa78656>"
	testb	%al, %al
	jne	.LBB34_187
.LBB34_133:
	movl	$32, 2552(%rsp)
	cmpq	$0, 2576(%rsp)
	movl	$0, 1144(%rbx)
	movq	$0, 1136(%rbx)
	movq	$-1, 2568(%rsp)
	jne	.LBB34_160
	movq	2448(%rsp), %rcx
.LBB34_135:
	cmpq	$1024, %rcx
	jb	.LBB34_137
	leaq	1416(%rsp), %rdi
	callq	"std_io::io::buffer::Buffer::flush"
	movq	2448(%rsp), %rcx
	cmpq	$1024, %rcx
	setb	%dl
	andb	%al, %dl
	cmpb	$1, %dl
	jne	.LBB34_187
.LBB34_137:
	movb	$32, 1420(%rsp,%rcx)
	leaq	1(%rcx), %rdx
	movq	%rdx, 2448(%rsp)
	cmpq	$1023, %rcx
	jne	.LBB34_139
	leaq	1416(%rsp), %rdi
	callq	"std_io::io::buffer::Buffer::flush"
	movq	2448(%rsp), %rdx
	cmpq	$1024, %rdx
	setb	%cl
	andb	%al, %cl
	cmpb	$1, %cl
	jne	.LBB34_187
.LBB34_139:
	movb	$40, 1420(%rsp,%rdx)
	leaq	1(%rdx), %rcx
	movq	%rcx, 2448(%rsp)
	cmpq	$1023, %rdx
	jb	.LBB34_141
	leaq	1416(%rsp), %rdi
	callq	"std_io::io::buffer::Buffer::flush"
	movq	2448(%rsp), %rcx
	cmpq	$1024, %rcx
	setb	%dl
	andb	%al, %dl
	cmpb	$1, %dl
	jne	.LBB34_187
.LBB34_141:
	movb	$111, 1420(%rsp,%rcx)
	leaq	1(%rcx), %rdx
	movq	%rdx, 2448(%rsp)
	cmpq	$1023, %rcx
	jb	.LBB34_143
	leaq	1416(%rsp), %rdi
	callq	"std_io::io::buffer::Buffer::flush"
	movq	2448(%rsp), %rdx
	cmpq	$1024, %rdx
	setb	%cl
	andb	%al, %cl
	cmpb	$1, %cl
	jne	.LBB34_187
.LBB34_143:
	movb	$115, 1420(%rsp,%rdx)
	leaq	1(%rdx), %rcx
	movq	%rcx, 2448(%rsp)
	cmpq	$1023, %rdx
	jb	.LBB34_145
	leaq	1416(%rsp), %rdi
	callq	"std_io::io::buffer::Buffer::flush"
	movq	2448(%rsp), %rcx
	cmpq	$1024, %rcx
	setb	%dl
	andb	%al, %dl
	cmpb	$1, %dl
	jne	.LBB34_187
.LBB34_145:
	movb	$32, 1420(%rsp,%rcx)
	leaq	1(%rcx), %rdx
	movq	%rdx, 2448(%rsp)
	cmpq	$1023, %rcx
	jb	.LBB34_147
	leaq	1416(%rsp), %rdi
	callq	"std_io::io::buffer::Buffer::flush"
	movq	2448(%rsp), %rdx
	cmpq	$1024, %rdx
	setb	%cl
	andb	%al, %cl
	cmpb	$1, %cl
	jne	.LBB34_187
.LBB34_147:
	movb	$101, 1420(%rsp,%rdx)
	leaq	1(%rdx), %rcx
	movq	%rcx, 2448(%rsp)
	cmpq	$1023, %rdx
	jb	.LBB34_149
	leaq	1416(%rsp), %rdi
	callq	"std_io::io::buffer::Buffer::flush"
	movq	2448(%rsp), %rcx
	cmpq	$1024, %rcx
	setb	%dl
	andb	%al, %dl
	cmpb	$1, %dl
	jne	.LBB34_187
.LBB34_149:
	movb	$114, 1420(%rsp,%rcx)
	leaq	1(%rcx), %rdx
	movq	%rdx, 2448(%rsp)
	cmpq	$1023, %rcx
	jb	.LBB34_151
	leaq	1416(%rsp), %rdi
	callq	"std_io::io::buffer::Buffer::flush"
	movq	2448(%rsp), %rdx
	cmpq	$1024, %rdx
	setb	%cl
	andb	%al, %cl
	cmpb	$1, %cl
	jne	.LBB34_187
.LBB34_151:
	movb	$114, 1420(%rsp,%rdx)
	leaq	1(%rdx), %rcx
	movq	%rcx, 2448(%rsp)
	cmpq	$1023, %rdx
	jb	.LBB34_153
	leaq	1416(%rsp), %rdi
	callq	"std_io::io::buffer::Buffer::flush"
	movq	2448(%rsp), %rcx
	cmpq	$1024, %rcx
	setb	%dl
	andb	%al, %dl
	cmpb	$1, %dl
	jne	.LBB34_187
.LBB34_153:
	movb	$111, 1420(%rsp,%rcx)
	leaq	1(%rcx), %rdx
	movq	%rdx, 2448(%rsp)
	cmpq	$1023, %rcx
	jb	.LBB34_155
	leaq	1416(%rsp), %rdi
	callq	"std_io::io::buffer::Buffer::flush"
	movq	2448(%rsp), %rdx
	cmpq	$1024, %rdx
	setb	%cl
	andb	%al, %cl
	cmpb	$1, %cl
	jne	.LBB34_187
.LBB34_155:
	movb	$114, 1420(%rsp,%rdx)
	leaq	1(%rdx), %rcx
	movq	%rcx, 2448(%rsp)
	cmpq	$1023, %rdx
	jb	.LBB34_157
	leaq	1416(%rsp), %rdi
	callq	"std_io::io::buffer::Buffer::flush"
	movq	2448(%rsp), %rcx
	cmpq	$1024, %rcx
	setb	%dl
	andb	%al, %dl
	cmpb	$1, %dl
	jne	.LBB34_187
.LBB34_157:
	movb	$32, 1420(%rsp,%rcx)
	incq	%rcx
	movq	%rcx, 2448(%rsp)
	jmp	.LBB34_161
.LBB34_158:
	leaq	1416(%rsp), %rdi
	movq	%r15, %rsi
.LBB34_159:
	callq	"core::fmt::formatter::Formatter::write_indented::<#bf264aed5fa78656>"
	jmp	.LBB34_129
.LBB34_160:
	leaq	.Lstatic.116(%rip), %rsi
	leaq	1416(%rsp), %rdi
	movl	$11, %edx
	callq	"core::fmt::formatter::Formatter::write_indented::<#bf264aed5fa78656>"
	testb	%al, %al
	jne	.LBB34_187
.LBB34_161:
	movl	$32, 2552(%rsp)
	movl	$0, 1144(%rbx)
	movq	$0, 1136(%rbx)
	movq	$-1, 2568(%rsp)
	movl	%r14d, %edx
	negl	%edx
	cmovsl	%r14d, %edx
	pxor	%xmm0, %xmm0
	movdqa	%xmm0, 64(%rsp)
	movq	$0, 80(%rsp)
	movl	$24, %eax
	cmpl	$100, %edx
	jb	.LBB34_164
	movq	16(%rsp), %r9
.LBB34_163:
	movl	%edx, %ecx
	imulq	$1374389535, %rcx, %rcx
	shrq	$37, %rcx
	imull	$100, %ecx, %esi
	movl	%edx, %edi
	subl	%esi, %edi
	imull	$103, %edi, %esi
	movzwl	%si, %esi
	shrl	$10, %esi
	leal	(%rsi,%rsi), %r8d
	leal	(%r8,%r8,4), %r8d
	subb	%r8b, %dil
	orb	$48, %dil
	movb	%dil, 63(%rsp,%rax)
	orb	$48, %sil
	movb	%sil, 62(%rsp,%rax)
	addq	$-2, %rax
	cmpq	$9999, %rdx
	movq	%rcx, %rdx
	ja	.LBB34_163
	jmp	.LBB34_165
.LBB34_164:
	movq	%rdx, %rcx
	movq	16(%rsp), %r9
.LBB34_165:
	cmpq	$10, %rcx
	jb	.LBB34_167
	movzbl	%cl, %edx
	imull	$205, %edx, %edx
	shrl	$11, %edx
	leal	(%rdx,%rdx), %esi
	leal	(%rsi,%rsi,4), %esi
	subb	%sil, %cl
	orb	$48, %cl
	movb	%cl, 63(%rsp,%rax)
	orb	$48, %dl
	movb	%dl, 62(%rsp,%rax)
	addq	$-2, %rax
	jmp	.LBB34_168
.LBB34_167:
	orb	$48, %cl
	movb	%cl, 63(%rsp,%rax)
	decq	%rax
.LBB34_168:
	leaq	-1(%rax), %r14
	testq	%r9, %r9
	movb	$45, 63(%rsp,%rax)
	cmovnsq	%rax, %r14
	cmpq	$0, 2576(%rsp)
	jne	.LBB34_186
	cmpq	$24, %r14
	jne	.LBB34_181
.LBB34_170:
	movl	$32, 2552(%rsp)
	movl	$0, 1144(%rbx)
	movq	$0, 1136(%rbx)
	movq	$-1, 2568(%rsp)
	cmpq	$0, 2576(%rsp)
	jne	.LBB34_192
	movq	2448(%rsp), %rcx
	cmpq	$1024, %rcx
	jb	.LBB34_173
	leaq	1416(%rsp), %rdi
	callq	"std_io::io::buffer::Buffer::flush"
	movq	2448(%rsp), %rcx
	cmpq	$1024, %rcx
	setb	%dl
	andb	%al, %dl
	cmpb	$1, %dl
	jne	.LBB34_187
.LBB34_173:
	movb	$41, 1420(%rsp,%rcx)
	incq	%rcx
	movq	%rcx, 2448(%rsp)
.LBB34_174:
	movq	48(%rsp), %rax
	movq	%rax, 1148(%rbx)
	movdqa	32(%rsp), %xmm0
	movdqu	%xmm0, 1132(%rbx)
.LBB34_175:
	movq	1148(%rbx), %rax
	movq	%rax, 288(%rsp)
	movups	1132(%rbx), %xmm0
	movaps	%xmm0, 272(%rsp)
	movl	$32, 2552(%rsp)
	movl	$0, 1144(%rbx)
	movq	$0, 1136(%rbx)
	movq	$-1, 2568(%rsp)
	cmpq	$0, 2576(%rsp)
	jne	.LBB34_180
	movq	2448(%rsp), %rcx
	cmpq	$1024, %rcx
	jb	.LBB34_178
	leaq	1416(%rsp), %rdi
	callq	"std_io::io::buffer::Buffer::flush"
	movq	2448(%rsp), %rcx
	cmpq	$1024, %rcx
	setb	%dl
	andb	%al, %dl
	cmpb	$1, %dl
	jne	.LBB34_179
.LBB34_178:
	movb	$10, 1420(%rsp,%rcx)
	incq	%rcx
	movq	%rcx, 2448(%rsp)
.LBB34_179:
	movq	288(%rsp), %rax
	movq	%rax, 1148(%rbx)
	movdqa	272(%rsp), %xmm0
	jmp	.LBB34_188
.LBB34_180:
	leaq	.Lstatic.45(%rip), %rsi
	leaq	1416(%rsp), %rdi
	movl	$1, %edx
	callq	"core::fmt::formatter::Formatter::write_indented::<#bf264aed5fa78656>"
	jmp	.LBB34_179
.LBB34_181:
	movq	2448(%rsp), %rax
	jmp	.LBB34_183
.LBB34_182:
	movb	%bpl, 1420(%rsp,%rax)
	incq	%rax
	movq	%rax, 2448(%rsp)
	incq	%r14
	cmpq	$24, %r14
	je	.LBB34_170
.LBB34_183:
	movzbl	64(%rsp,%r14), %ebp
	cmpq	$1024, %rax
	jb	.LBB34_182
	leaq	1416(%rsp), %rdi
	callq	"std_io::io::buffer::Buffer::flush"
	testb	%al, %al
	je	.LBB34_187
	movq	2448(%rsp), %rax
	cmpq	$1023, %rax
	jbe	.LBB34_182
	jmp	.LBB34_187
.LBB34_186:
	movl	$24, %edx
	subq	%r14, %rdx
	leaq	(%rsp,%r14), %rsi
	addq	$64, %rsi
	leaq	1416(%rsp), %rdi
	callq	"core::fmt::formatter::Formatter::write_indented::<#bf264aed5fa78656>"
	testb	%al, %al
	je	.LBB34_170
.LBB34_187:
	movq	48(%rsp), %rax
	movq	%rax, 1148(%rbx)
	movdqa	32(%rsp), %xmm0
.LBB34_188:
	movdqu	%xmm0, 1132(%rbx)
.LBB34_189:
	movl	1416(%rsp), %eax
	movl	%eax, 272(%rsp)
	leaq	276(%rsp), %rdi
	movl	$1132, %edx
	movq	%rbx, %rsi
	callq	memcpy@PLT
	leaq	272(%rsp), %rdi
	callq	"std_io::io::buffer::Buffer::flush"
.LBB34_190:
	movl	$1, %eax
.LBB34_191:
	addq	$5512, %rsp
	popq	%rbx
	popq	%r12
	popq	%r13
	popq	%r14
	popq	%r15
	popq	%rbp
	retq
.LBB34_192:
	leaq	.Lstatic.117(%rip), %rsi
	leaq	1416(%rsp), %rdi
	movl	$1, %edx
	jmp	.LBB34_159
.Lfunc_end34:
	.size	main, .Lfunc_end34-main

	.type	.Lstatic.2,@object
	.section	.rodata..Lstatic.2,"a",@progbits
.Lstatic.2:
	.size	.Lstatic.2, 0

	.type	.Lstatic.45,@object
	.section	.rodata..Lstatic.45,"a",@progbits
.Lstatic.45:
	.byte	10
	.size	.Lstatic.45, 1

	.type	.Lstatic.50,@object
	.section	.rodata..Lstatic.50,"a",@progbits
.Lstatic.50:
	.ascii	"UTF8 ON"
	.size	.Lstatic.50, 7

	.type	.Lstatic.51,@object
	.section	.rodata..Lstatic.51,"a",@progbits
.Lstatic.51:
	.ascii	"utf8 on"
	.size	.Lstatic.51, 7

	.type	.Lstatic.52,@object
	.section	.rodata.cst8,"aM",@progbits,8
.Lstatic.52:
	.ascii	"UTF8 OFF"
	.size	.Lstatic.52, 8

	.type	.Lstatic.53,@object
.Lstatic.53:
	.ascii	"utf8 off"
	.size	.Lstatic.53, 8

	.type	.Lstatic.54,@object
	.section	.rodata..Lstatic.54,"a",@progbits
.Lstatic.54:
	.ascii	"OK"
	.size	.Lstatic.54, 2

	.type	.Lstatic.55,@object
	.section	.rodata..Lstatic.55,"a",@progbits
.Lstatic.55:
	.ascii	"Bye"
	.size	.Lstatic.55, 3

	.type	.Lstatic.58,@object
	.section	.rodata..Lstatic.58,"a",@progbits
.Lstatic.58:
	.ascii	"TLS/SSL not configured"
	.size	.Lstatic.58, 22

	.type	.Lstatic.63,@object
	.section	.data.rel.ro..Lstatic.63,"aw",@progbits
	.p2align	3, 0x0
.Lstatic.63:
	.quad	.Lstatic.63+64
	.asciz	"\004\000\000\000\000\000\000"
	.quad	.Lstatic.63+68
	.asciz	"\004\000\000\000\000\000\000"
	.quad	.Lstatic.63+72
	.asciz	"\004\000\000\000\000\000\000"
	.quad	.Lstatic.63+76
	.ascii	"\004\000\000\000\000\000\000\000EPSVMDTMMLSDMLST"
	.size	.Lstatic.63, 80

	.type	.Lstatic.67,@object
	.section	.data.rel.ro..Lstatic.67,"aw",@progbits
	.p2align	3, 0x0
.Lstatic.67:
	.quad	.Lstatic.67+32
	.asciz	"\004\000\000\000\000\000\000"
	.quad	.Lstatic.67+36
	.ascii	"\004\000\000\000\000\000\000\000SIZEUTF8"
	.size	.Lstatic.67, 40

	.type	.Lstatic.68,@object
	.section	.data.rel.ro..Lstatic.68,"aw",@progbits
	.p2align	3, 0x0
.Lstatic.68:
	.quad	.Lstatic.68+16
	.asciz	"\025\000\000\000\000\000\000\000Extensions supported:\000\000"
	.size	.Lstatic.68, 40

	.type	.Lstatic.69,@object
	.section	.data.rel.ro..Lstatic.69,"aw",@progbits
	.p2align	3, 0x0
.Lstatic.69:
	.quad	.Lstatic.69+16
	.asciz	"\003\000\000\000\000\000\000\000END\000\000\000\000"
	.size	.Lstatic.69, 24

	.type	.Lstatic.70,@object
	.section	.rodata..Lstatic.70,"a",@progbits
.Lstatic.70:
	.byte	32
	.size	.Lstatic.70, 1

	.type	.Lstatic.71,@object
	.section	.rodata.cst4,"aM",@progbits,4
.Lstatic.71:
	.zero	4,32
	.size	.Lstatic.71, 4

	.type	.Lstatic.73,@object
	.section	.rodata..Lstatic.73,"a",@progbits
.Lstatic.73:
	.ascii	"Entering Extended Passive Mode (|||"
	.size	.Lstatic.73, 35

	.type	.Lstatic.74,@object
	.section	.rodata..Lstatic.74,"a",@progbits
.Lstatic.74:
	.ascii	"|)"
	.size	.Lstatic.74, 2

	.type	.Lstatic.76,@object
	.section	.data.rel.ro..Lstatic.76,"aw",@progbits
	.p2align	3, 0x0
.Lstatic.76:
	.quad	.Lstatic.76+48
	.asciz	"\005\000\000\000\000\000\000"
	.quad	.Lstatic.76+53
	.asciz	"\033\000\000\000\000\000\000"
	.quad	.Lstatic.76+80
	.asciz	"#\000\000\000\000\000\000\000Help:Powered by libunftp: 0.24.0View the docs at: https://unftp.rs/\000\000\000\000"
	.size	.Lstatic.76, 120

	.type	.Lstatic.77,@object
	.section	.rodata..Lstatic.77,"a",@progbits
.Lstatic.77:
	.ascii	"Using Stream transfer mode"
	.size	.Lstatic.77, 26

	.type	.Lstatic.78,@object
	.section	.rodata..Lstatic.78,"a",@progbits
.Lstatic.78:
	.ascii	"Only Stream transfer mode is supported"
	.size	.Lstatic.78, 38

	.type	.Lstatic.79,@object
	.section	.rodata..Lstatic.79,"a",@progbits
.Lstatic.79:
	.ascii	"Always in UTF-8 mode."
	.size	.Lstatic.79, 21

	.type	.Lstatic.80,@object
	.section	.rodata..Lstatic.80,"a",@progbits
.Lstatic.80:
	.ascii	"Non UTF-8 mode not supported"
	.size	.Lstatic.80, 28

	.type	.Lstatic.81,@object
	.section	.rodata..Lstatic.81,"a",@progbits
.Lstatic.81:
	.ascii	"In File structure mode"
	.size	.Lstatic.81, 22

	.type	.Lstatic.82,@object
	.section	.rodata..Lstatic.82,"a",@progbits
.Lstatic.82:
	.ascii	"Only File structure mode is supported"
	.size	.Lstatic.82, 37

	.type	.Lstatic.83,@object
	.section	.rodata..Lstatic.83,"a",@progbits
.Lstatic.83:
	.ascii	"type=file;size=1234;modify=20231201120000;"
	.size	.Lstatic.83, 42

	.type	.Lstatic.84,@object
	.section	.rodata..Lstatic.84,"a",@progbits
.Lstatic.84:
	.byte	47
	.size	.Lstatic.84, 1

	.type	.Lstatic.85,@object
	.section	.rodata.cst8,"aM",@progbits,8
.Lstatic.85:
	.ascii	" Listing"
	.size	.Lstatic.85, 8

	.type	.Lstatic.86,@object
	.section	.rodata..Lstatic.86,"a",@progbits
.Lstatic.86:
	.ascii	"End"
	.size	.Lstatic.86, 3

	.type	.Lstatic.88,@object
	.section	.rodata..Lstatic.88,"a",@progbits
.Lstatic.88:
	.ascii	"Not implemented"
	.size	.Lstatic.88, 15

	.type	.Lstatic.89,@object
	.section	.rodata..Lstatic.89,"a",@progbits
.Lstatic.89:
	.ascii	"Invalid command"
	.size	.Lstatic.89, 15

	.type	.Lstatic.90,@object
	.section	.rodata.cst32,"aM",@progbits,32
.Lstatic.90:
	.ascii	"Non-UTF8 character while parsing"
	.size	.Lstatic.90, 32

	.type	.Lstatic.91,@object
	.section	.rodata..Lstatic.91,"a",@progbits
.Lstatic.91:
	.ascii	"Invalid end-of-line"
	.size	.Lstatic.91, 19

	.type	.Lstatic.92,@object
	.section	.rodata..Lstatic.92,"a",@progbits
.Lstatic.92:
	.ascii	"Out of memory"
	.size	.Lstatic.92, 13

	.type	.Lstatic.93,@object
	.section	.rodata..Lstatic.93,"a",@progbits
.Lstatic.93:
	.ascii	"Unknown command: "
	.size	.Lstatic.93, 17

	.type	.Lstatic.94,@object
	.section	.rodata..Lstatic.94,"a",@progbits
.Lstatic.94:
	.ascii	"Failed to perform IO"
	.size	.Lstatic.94, 20

	.type	.Lstatic.95,@object
	.section	.rodata..Lstatic.95,"a",@progbits
.Lstatic.95:
	.ascii	"Failed to parse command"
	.size	.Lstatic.95, 23

	.type	.Lstatic.96,@object
	.section	.rodata..Lstatic.96,"a",@progbits
.Lstatic.96:
	.ascii	"Internal Server Error"
	.size	.Lstatic.96, 21

	.type	.Lstatic.97,@object
	.section	.rodata..Lstatic.97,"a",@progbits
.Lstatic.97:
	.ascii	"Something went wrong when trying to authenticate"
	.size	.Lstatic.97, 48

	.type	.Lstatic.98,@object
	.section	.rodata..Lstatic.98,"a",@progbits
.Lstatic.98:
	.ascii	"Failed to map event from data channel"
	.size	.Lstatic.98, 37

	.type	.Lstatic.99,@object
	.section	.rodata..Lstatic.99,"a",@progbits
.Lstatic.99:
	.ascii	"Non-UTF8 character in command"
	.size	.Lstatic.99, 29

	.type	.Lstatic.101,@object
	.section	.rodata..Lstatic.101,"a",@progbits
.Lstatic.101:
	.ascii	"Invalid command (invalid parameter)"
	.size	.Lstatic.101, 35

	.type	.Lstatic.102,@object
	.section	.rodata..Lstatic.102,"a",@progbits
.Lstatic.102:
	.ascii	"Encountered read timeout on the control channel"
	.size	.Lstatic.102, 47

	.type	.Lstatic.103,@object
	.section	.rodata.cst32,"aM",@progbits,32
.Lstatic.103:
	.ascii	"Control channel in illegal state"
	.size	.Lstatic.103, 32

	.type	.Lstatic.104,@object
	.section	.rodata..Lstatic.104,"a",@progbits
.Lstatic.104:
	.ascii	"Line too long"
	.size	.Lstatic.104, 13

	.type	.Lstatic.106,@object
	.section	.rodata..Lstatic.106,"a",@progbits
.Lstatic.106:
	.ascii	"\r\n"
	.size	.Lstatic.106, 2

	.type	.Lstatic.110,@object
	.section	.rodata..Lstatic.110,"a",@progbits
.Lstatic.110:
	.ascii	"the writer took nothing"
	.size	.Lstatic.110, 23

	.type	.Lstatic.111,@object
	.section	.rodata..Lstatic.111,"a",@progbits
.Lstatic.111:
	.ascii	"the handler failed"
	.size	.Lstatic.111, 18

	.type	.Lstatic.112,@object
	.section	.rodata..Lstatic.112,"a",@progbits
.Lstatic.112:
	.ascii	"out of memory"
	.size	.Lstatic.112, 13

	.type	.Lstatic.113,@object
	.section	.rodata..Lstatic.113,"a",@progbits
.Lstatic.113:
	.ascii	"the engine has stopped"
	.size	.Lstatic.113, 22

	.type	.Lstatic.114,@object
	.section	.rodata..Lstatic.114,"a",@progbits
.Lstatic.114:
	.ascii	"too many reads"
	.size	.Lstatic.114, 14

	.type	.Lstatic.116,@object
	.section	.rodata..Lstatic.116,"a",@progbits
.Lstatic.116:
	.ascii	" (os error "
	.size	.Lstatic.116, 11

	.type	.Lstatic.117,@object
	.section	.rodata..Lstatic.117,"a",@progbits
.Lstatic.117:
	.byte	41
	.size	.Lstatic.117, 1

	.type	.Lstatic.118,@object
	.section	.rodata.cst16,"aM",@progbits,16
.Lstatic.118:
	.ascii	"entity not found"
	.size	.Lstatic.118, 16

	.type	.Lstatic.119,@object
	.section	.rodata..Lstatic.119,"a",@progbits
.Lstatic.119:
	.ascii	"permission denied"
	.size	.Lstatic.119, 17

	.type	.Lstatic.120,@object
	.section	.rodata..Lstatic.120,"a",@progbits
.Lstatic.120:
	.ascii	"connection refused"
	.size	.Lstatic.120, 18

	.type	.Lstatic.121,@object
	.section	.rodata.cst16,"aM",@progbits,16
.Lstatic.121:
	.ascii	"connection reset"
	.size	.Lstatic.121, 16

	.type	.Lstatic.122,@object
.Lstatic.122:
	.ascii	"host unreachable"
	.size	.Lstatic.122, 16

	.type	.Lstatic.123,@object
	.section	.rodata..Lstatic.123,"a",@progbits
.Lstatic.123:
	.ascii	"network unreachable"
	.size	.Lstatic.123, 19

	.type	.Lstatic.124,@object
	.section	.rodata..Lstatic.124,"a",@progbits
.Lstatic.124:
	.ascii	"connection aborted"
	.size	.Lstatic.124, 18

	.type	.Lstatic.125,@object
	.section	.rodata..Lstatic.125,"a",@progbits
.Lstatic.125:
	.ascii	"not connected"
	.size	.Lstatic.125, 13

	.type	.Lstatic.126,@object
	.section	.rodata..Lstatic.126,"a",@progbits
.Lstatic.126:
	.ascii	"address in use"
	.size	.Lstatic.126, 14

	.type	.Lstatic.127,@object
	.section	.rodata..Lstatic.127,"a",@progbits
.Lstatic.127:
	.ascii	"address not available"
	.size	.Lstatic.127, 21

	.type	.Lstatic.128,@object
	.section	.rodata..Lstatic.128,"a",@progbits
.Lstatic.128:
	.ascii	"network down"
	.size	.Lstatic.128, 12

	.type	.Lstatic.129,@object
	.section	.rodata..Lstatic.129,"a",@progbits
.Lstatic.129:
	.ascii	"broken pipe"
	.size	.Lstatic.129, 11

	.type	.Lstatic.130,@object
	.section	.rodata..Lstatic.130,"a",@progbits
.Lstatic.130:
	.ascii	"entity already exists"
	.size	.Lstatic.130, 21

	.type	.Lstatic.131,@object
	.section	.rodata..Lstatic.131,"a",@progbits
.Lstatic.131:
	.ascii	"operation would block"
	.size	.Lstatic.131, 21

	.type	.Lstatic.132,@object
	.section	.rodata..Lstatic.132,"a",@progbits
.Lstatic.132:
	.ascii	"not a directory"
	.size	.Lstatic.132, 15

	.type	.Lstatic.133,@object
	.section	.rodata..Lstatic.133,"a",@progbits
.Lstatic.133:
	.ascii	"is a directory"
	.size	.Lstatic.133, 14

	.type	.Lstatic.134,@object
	.section	.rodata..Lstatic.134,"a",@progbits
.Lstatic.134:
	.ascii	"directory not empty"
	.size	.Lstatic.134, 19

	.type	.Lstatic.135,@object
	.section	.rodata..Lstatic.135,"a",@progbits
.Lstatic.135:
	.ascii	"read-only filesystem or storage medium"
	.size	.Lstatic.135, 38

	.type	.Lstatic.136,@object
	.section	.rodata..Lstatic.136,"a",@progbits
.Lstatic.136:
	.ascii	"filesystem loop or indirection limit (e.g. symlink loop)"
	.size	.Lstatic.136, 56

	.type	.Lstatic.137,@object
	.section	.rodata..Lstatic.137,"a",@progbits
.Lstatic.137:
	.ascii	"stale network file handle"
	.size	.Lstatic.137, 25

	.type	.Lstatic.138,@object
	.section	.rodata..Lstatic.138,"a",@progbits
.Lstatic.138:
	.ascii	"invalid input parameter"
	.size	.Lstatic.138, 23

	.type	.Lstatic.139,@object
	.section	.rodata..Lstatic.139,"a",@progbits
.Lstatic.139:
	.ascii	"invalid data"
	.size	.Lstatic.139, 12

	.type	.Lstatic.140,@object
	.section	.rodata..Lstatic.140,"a",@progbits
.Lstatic.140:
	.ascii	"timed out"
	.size	.Lstatic.140, 9

	.type	.Lstatic.141,@object
	.section	.rodata..Lstatic.141,"a",@progbits
.Lstatic.141:
	.ascii	"write zero"
	.size	.Lstatic.141, 10

	.type	.Lstatic.142,@object
	.section	.rodata.cst16,"aM",@progbits,16
.Lstatic.142:
	.ascii	"no storage space"
	.size	.Lstatic.142, 16

	.type	.Lstatic.143,@object
	.section	.rodata..Lstatic.143,"a",@progbits
.Lstatic.143:
	.ascii	"seek on unseekable file"
	.size	.Lstatic.143, 23

	.type	.Lstatic.144,@object
	.section	.rodata..Lstatic.144,"a",@progbits
.Lstatic.144:
	.ascii	"quota exceeded"
	.size	.Lstatic.144, 14

	.type	.Lstatic.145,@object
	.section	.rodata..Lstatic.145,"a",@progbits
.Lstatic.145:
	.ascii	"file too large"
	.size	.Lstatic.145, 14

	.type	.Lstatic.146,@object
	.section	.rodata..Lstatic.146,"a",@progbits
.Lstatic.146:
	.ascii	"resource busy"
	.size	.Lstatic.146, 13

	.type	.Lstatic.147,@object
	.section	.rodata..Lstatic.147,"a",@progbits
.Lstatic.147:
	.ascii	"executable file busy"
	.size	.Lstatic.147, 20

	.type	.Lstatic.148,@object
	.section	.rodata.cst8,"aM",@progbits,8
.Lstatic.148:
	.ascii	"deadlock"
	.size	.Lstatic.148, 8

	.type	.Lstatic.149,@object
	.section	.rodata..Lstatic.149,"a",@progbits
.Lstatic.149:
	.ascii	"cross-device link or rename"
	.size	.Lstatic.149, 27

	.type	.Lstatic.150,@object
	.section	.rodata..Lstatic.150,"a",@progbits
.Lstatic.150:
	.ascii	"too many links"
	.size	.Lstatic.150, 14

	.type	.Lstatic.151,@object
	.section	.rodata.cst16,"aM",@progbits,16
.Lstatic.151:
	.ascii	"invalid filename"
	.size	.Lstatic.151, 16

	.type	.Lstatic.152,@object
	.section	.rodata..Lstatic.152,"a",@progbits
.Lstatic.152:
	.ascii	"argument list too long"
	.size	.Lstatic.152, 22

	.type	.Lstatic.153,@object
	.section	.rodata..Lstatic.153,"a",@progbits
.Lstatic.153:
	.ascii	"operation interrupted"
	.size	.Lstatic.153, 21

	.type	.Lstatic.154,@object
	.section	.rodata..Lstatic.154,"a",@progbits
.Lstatic.154:
	.ascii	"unsupported"
	.size	.Lstatic.154, 11

	.type	.Lstatic.155,@object
	.section	.rodata..Lstatic.155,"a",@progbits
.Lstatic.155:
	.ascii	"unexpected end of file"
	.size	.Lstatic.155, 22

	.type	.Lstatic.156,@object
	.section	.rodata..Lstatic.156,"a",@progbits
.Lstatic.156:
	.ascii	"in progress"
	.size	.Lstatic.156, 11

	.type	.Lstatic.157,@object
	.section	.rodata..Lstatic.157,"a",@progbits
.Lstatic.157:
	.ascii	"other error"
	.size	.Lstatic.157, 11

	.type	.Lstatic.158,@object
	.section	.rodata..Lstatic.158,"a",@progbits
.Lstatic.158:
	.ascii	"uncategorized error"
	.size	.Lstatic.158, 19

	.type	.Lswitch.table.main,@object
	.section	.rodata..Lswitch.table.main,"a",@progbits
	.p2align	3, 0x0
.Lswitch.table.main:
	.quad	23
	.quad	18
	.quad	13
	.quad	22
	.quad	14
	.size	.Lswitch.table.main, 40

	.type	.Lswitch.table.main.207.rel,@object
	.section	.rodata..Lswitch.table.main.207.rel,"a",@progbits
	.p2align	2, 0x0
.Lswitch.table.main.207.rel:
	.long	.Lstatic.110-.Lswitch.table.main.207.rel
	.long	.Lstatic.111-.Lswitch.table.main.207.rel
	.long	.Lstatic.112-.Lswitch.table.main.207.rel
	.long	.Lstatic.113-.Lswitch.table.main.207.rel
	.long	.Lstatic.114-.Lswitch.table.main.207.rel
	.size	.Lswitch.table.main.207.rel, 20

	.ident	"rattle logic=dac8208d650f15bf3e2dc313a14fa4c783a3acf887bdfab66e1714b038d9e11b"
	.section	.text.rattle_alloc,"ax",@progbits
	.p2align	4
	.type	rattle_alloc,@function
rattle_alloc:
	pushq	%rax
	testq	%rdi, %rdi
	cmoveq	%rsi, %rdi
	callq	malloc@PLT
	xorl	%ecx, %ecx
	testq	%rax, %rax
	setne	%cl
	leaq	none(%rip), %rdx
	cmovneq	%rax, %rdx
	movl	%ecx, %eax
	popq	%rcx
	retq
.Lmemory_func_end0:
	.size	rattle_alloc, .Lmemory_func_end0-rattle_alloc

	.section	.text.rattle_realloc,"ax",@progbits
	.p2align	4
	.type	rattle_realloc,@function
rattle_realloc:
	pushq	%rax
	testq	%rdx, %rdx
	cmovneq	%rdx, %rcx
	movq	%rcx, %rsi
	callq	realloc@PLT
	xorl	%ecx, %ecx
	testq	%rax, %rax
	setne	%cl
	leaq	none(%rip), %rdx
	cmovneq	%rax, %rdx
	movl	%ecx, %eax
	popq	%rcx
	retq
.Lmemory_func_end1:
	.size	rattle_realloc, .Lmemory_func_end1-rattle_realloc

	.section	.text.rattle_dealloc,"ax",@progbits
	.p2align	4
	.type	rattle_dealloc,@function
rattle_dealloc:
	jmp	free@PLT
.Lmemory_func_end2:
	.size	rattle_dealloc, .Lmemory_func_end2-rattle_dealloc

	.type	none,@object
	.local	none
	.comm	none,1,1
	.section	.text.rattle_errno,"ax",@progbits
	.p2align	4
	.type	rattle_errno,@function
rattle_errno:
	pushq	%rax
	callq	__errno_location@PLT
	movl	(%rax), %eax
	popq	%rcx
	retq
.Lerrno_func_end0:
	.size	rattle_errno, .Lerrno_func_end0-rattle_errno

	.section	.text.rattle_set_errno,"ax",@progbits
	.p2align	4
	.type	rattle_set_errno,@function
rattle_set_errno:
	pushq	%rbx
	movl	%edi, %ebx
	callq	__errno_location@PLT
	movl	%ebx, (%rax)
	popq	%rbx
	retq
.Lerrno_func_end1:
	.size	rattle_set_errno, .Lerrno_func_end1-rattle_set_errno

	.globl	main
	.section	".note.GNU-stack","",@progbits
