; What stands in place of functions of crates/sha_instructions/src/instructions.rt in builds for x86-64: for each
; instruction the instruction itself, and for has_instructions() a question to the processor.

; What the processor answered: 0 if it wasn't asked yet, 1 for no and 2 for yes. Every thread sets it to the same.
@sha_instructions_answer = internal global i8 0, align 1

; CPUID: SSSE3 and SSE4.1 are bits 9 and 19 of ECX of leaf 1, and SHA is bit 29 of EBX of leaf 7.
define internal noundef zeroext i1 @"sha_instructions::instructions::has_instructions"() {
start:
  %known = load atomic i8, ptr @sha_instructions_answer monotonic, align 1
  %fresh = icmp eq i8 %known, 0
  br i1 %fresh, label %ask, label %answer
ask:
  %wanted = call i1 @sha_instructions_wanted()
  br i1 %wanted, label %first, label %keep
first:
  %l0 = call { i32, i32, i32, i32 } asm sideeffect "cpuid", "={ax},={bx},={cx},={dx},{ax},{cx},~{dirflag},~{fpsr},~{flags}"(i32 0, i32 0)
  %most = extractvalue { i32, i32, i32, i32 } %l0, 0
  %has7 = icmp uge i32 %most, 7
  br i1 %has7, label %more, label %keep
more:
  %l1 = call { i32, i32, i32, i32 } asm sideeffect "cpuid", "={ax},={bx},={cx},={dx},{ax},{cx},~{dirflag},~{fpsr},~{flags}"(i32 1, i32 0)
  %c = extractvalue { i32, i32, i32, i32 } %l1, 2
  %sse = and i32 %c, 524800
  %has_sse = icmp eq i32 %sse, 524800
  %l7 = call { i32, i32, i32, i32 } asm sideeffect "cpuid", "={ax},={bx},={cx},={dx},{ax},{cx},~{dirflag},~{fpsr},~{flags}"(i32 7, i32 0)
  %b = extractvalue { i32, i32, i32, i32 } %l7, 1
  %sha = and i32 %b, 536870912
  %has_sha = icmp ne i32 %sha, 0
  %all = and i1 %has_sse, %has_sha
  br label %keep
keep:
  %is = phi i1 [ false, %ask ], [ false, %first ], [ %all, %more ]
  %kept = select i1 %is, i8 2, i8 1
  store atomic i8 %kept, ptr @sha_instructions_answer monotonic, align 1
  br label %answer
answer:
  %now = phi i8 [ %known, %start ], [ %kept, %keep ]
  %result = icmp eq i8 %now, 2
  ret i1 %result
}

define internal void @"sha_instructions::instructions::sha1rnds4_0"(ptr noundef %a0, ptr noundef %a1, ptr noundef %a2) {
  %v1 = load <4 x i32>, ptr %a1, align 4
  %v2 = load <4 x i32>, ptr %a2, align 4
  %result = call <4 x i32> @llvm.x86.sha1rnds4(<4 x i32> %v1, <4 x i32> %v2, i8 0)
  store <4 x i32> %result, ptr %a0, align 4
  ret void
}

define internal void @"sha_instructions::instructions::sha1rnds4_1"(ptr noundef %a0, ptr noundef %a1, ptr noundef %a2) {
  %v1 = load <4 x i32>, ptr %a1, align 4
  %v2 = load <4 x i32>, ptr %a2, align 4
  %result = call <4 x i32> @llvm.x86.sha1rnds4(<4 x i32> %v1, <4 x i32> %v2, i8 1)
  store <4 x i32> %result, ptr %a0, align 4
  ret void
}

define internal void @"sha_instructions::instructions::sha1rnds4_2"(ptr noundef %a0, ptr noundef %a1, ptr noundef %a2) {
  %v1 = load <4 x i32>, ptr %a1, align 4
  %v2 = load <4 x i32>, ptr %a2, align 4
  %result = call <4 x i32> @llvm.x86.sha1rnds4(<4 x i32> %v1, <4 x i32> %v2, i8 2)
  store <4 x i32> %result, ptr %a0, align 4
  ret void
}

define internal void @"sha_instructions::instructions::sha1rnds4_3"(ptr noundef %a0, ptr noundef %a1, ptr noundef %a2) {
  %v1 = load <4 x i32>, ptr %a1, align 4
  %v2 = load <4 x i32>, ptr %a2, align 4
  %result = call <4 x i32> @llvm.x86.sha1rnds4(<4 x i32> %v1, <4 x i32> %v2, i8 3)
  store <4 x i32> %result, ptr %a0, align 4
  ret void
}

define internal void @"sha_instructions::instructions::sha1nexte"(ptr noundef %a0, ptr noundef %a1, ptr noundef %a2) {
  %v1 = load <4 x i32>, ptr %a1, align 4
  %v2 = load <4 x i32>, ptr %a2, align 4
  %result = call <4 x i32> @llvm.x86.sha1nexte(<4 x i32> %v1, <4 x i32> %v2)
  store <4 x i32> %result, ptr %a0, align 4
  ret void
}

define internal void @"sha_instructions::instructions::sha1msg1"(ptr noundef %a0, ptr noundef %a1, ptr noundef %a2) {
  %v1 = load <4 x i32>, ptr %a1, align 4
  %v2 = load <4 x i32>, ptr %a2, align 4
  %result = call <4 x i32> @llvm.x86.sha1msg1(<4 x i32> %v1, <4 x i32> %v2)
  store <4 x i32> %result, ptr %a0, align 4
  ret void
}

define internal void @"sha_instructions::instructions::sha1msg2"(ptr noundef %a0, ptr noundef %a1, ptr noundef %a2) {
  %v1 = load <4 x i32>, ptr %a1, align 4
  %v2 = load <4 x i32>, ptr %a2, align 4
  %result = call <4 x i32> @llvm.x86.sha1msg2(<4 x i32> %v1, <4 x i32> %v2)
  store <4 x i32> %result, ptr %a0, align 4
  ret void
}

define internal void @"sha_instructions::instructions::sha256rnds2"(ptr noundef %a0, ptr noundef %a1, ptr noundef %a2, ptr noundef %a3) {
  %v1 = load <4 x i32>, ptr %a1, align 4
  %v2 = load <4 x i32>, ptr %a2, align 4
  %v3 = load <4 x i32>, ptr %a3, align 4
  %result = call <4 x i32> @llvm.x86.sha256rnds2(<4 x i32> %v1, <4 x i32> %v2, <4 x i32> %v3)
  store <4 x i32> %result, ptr %a0, align 4
  ret void
}

define internal void @"sha_instructions::instructions::sha256msg1"(ptr noundef %a0, ptr noundef %a1, ptr noundef %a2) {
  %v1 = load <4 x i32>, ptr %a1, align 4
  %v2 = load <4 x i32>, ptr %a2, align 4
  %result = call <4 x i32> @llvm.x86.sha256msg1(<4 x i32> %v1, <4 x i32> %v2)
  store <4 x i32> %result, ptr %a0, align 4
  ret void
}

define internal void @"sha_instructions::instructions::sha256msg2"(ptr noundef %a0, ptr noundef %a1, ptr noundef %a2) {
  %v1 = load <4 x i32>, ptr %a1, align 4
  %v2 = load <4 x i32>, ptr %a2, align 4
  %result = call <4 x i32> @llvm.x86.sha256msg2(<4 x i32> %v1, <4 x i32> %v2)
  store <4 x i32> %result, ptr %a0, align 4
  ret void
}

declare <4 x i32> @llvm.x86.sha1rnds4(<4 x i32>, <4 x i32>, i8 immarg)
declare <4 x i32> @llvm.x86.sha1nexte(<4 x i32>, <4 x i32>)
declare <4 x i32> @llvm.x86.sha1msg1(<4 x i32>, <4 x i32>)
declare <4 x i32> @llvm.x86.sha1msg2(<4 x i32>, <4 x i32>)
declare <4 x i32> @llvm.x86.sha256rnds2(<4 x i32>, <4 x i32>, <4 x i32>)
declare <4 x i32> @llvm.x86.sha256msg1(<4 x i32>, <4 x i32>)
declare <4 x i32> @llvm.x86.sha256msg2(<4 x i32>, <4 x i32>)

; How often each instruction stands in each function, of which a program may lack some.
; In sha_instructions::sha_1::take_blocks: sha1msg1 16
; In sha_instructions::sha_1::take_blocks: sha1msg2 16
; In sha_instructions::sha_1::take_blocks: sha1nexte 21
; In sha_instructions::sha_1::take_blocks: sha1rnds4 20
; In sha_instructions::sha_1::take_blocks_of_two: sha1msg1 32
; In sha_instructions::sha_1::take_blocks_of_two: sha1msg2 32
; In sha_instructions::sha_1::take_blocks_of_two: sha1nexte 42
; In sha_instructions::sha_1::take_blocks_of_two: sha1rnds4 40
; In sha_instructions::sha_256::take_blocks: sha256msg1 12
; In sha_instructions::sha_256::take_blocks: sha256msg2 12
; In sha_instructions::sha_256::take_blocks: sha256rnds2 32
; In sha_instructions::sha_256::take_blocks_of_two: sha256msg1 24
; In sha_instructions::sha_256::take_blocks_of_two: sha256msg2 24
; In sha_instructions::sha_256::take_blocks_of_two: sha256rnds2 64
