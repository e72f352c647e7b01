
; Whether a program is to use SHA instructions: not if VERITY_PROCESSOR in its environment is x86-64, x86-64-v2,
; x86-64-v3 or armv8-a. That is asked once: 0 if it wasn't yet, 1 for no and 2 for yes. Every thread sets it to the
; same.
@sha_instructions_choice = internal global i8 0, align 1
@sha_instructions_variable = private constant [17 x i8] c"VERITY_PROCESSOR\00"
@sha_instructions_x86 = private constant [7 x i8] c"x86-64\00"
@sha_instructions_x86_v2 = private constant [10 x i8] c"x86-64-v2\00"
@sha_instructions_x86_v3 = private constant [10 x i8] c"x86-64-v3\00"
@sha_instructions_arm = private constant [8 x i8] c"armv8-a\00"
declare ptr @getenv(ptr)
declare i32 @strcmp(ptr, ptr)

define internal i1 @sha_instructions_wanted() {
start:
  %known = load atomic i8, ptr @sha_instructions_choice monotonic, align 1
  %fresh = icmp eq i8 %known, 0
  br i1 %fresh, label %ask, label %answer
ask:
  %word = call ptr @getenv(ptr @sha_instructions_variable)
  %none = icmp eq ptr %word, null
  br i1 %none, label %keep, label %compare
compare:
  %to_x86 = call i32 @strcmp(ptr %word, ptr @sha_instructions_x86)
  %to_x86_v2 = call i32 @strcmp(ptr %word, ptr @sha_instructions_x86_v2)
  %to_x86_v3 = call i32 @strcmp(ptr %word, ptr @sha_instructions_x86_v3)
  %to_arm = call i32 @strcmp(ptr %word, ptr @sha_instructions_arm)
  %differs_x86 = icmp ne i32 %to_x86, 0
  %differs_x86_v2 = icmp ne i32 %to_x86_v2, 0
  %differs_x86_v3 = icmp ne i32 %to_x86_v3, 0
  %differs_arm = icmp ne i32 %to_arm, 0
  %differs_two = and i1 %differs_x86, %differs_x86_v2
  %differs_three = and i1 %differs_two, %differs_x86_v3
  %differs = and i1 %differs_three, %differs_arm
  br label %keep
keep:
  %is = phi i1 [ true, %ask ], [ %differs, %compare ]
  %kept = select i1 %is, i8 2, i8 1
  store atomic i8 %kept, ptr @sha_instructions_choice monotonic, align 1
  br label %answer
answer:
  %now = phi i8 [ %known, %start ], [ %kept, %keep ]
  %result = icmp eq i8 %now, 2
  ret i1 %result
}
