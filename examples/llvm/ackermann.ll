; ModuleID = 'ackermann.c'
source_filename = "ackermann.c"
target datalayout = "e-m:e-p270:32:32-p271:32:32-p272:64:64-i64:64-f80:128-n8:16:32:64-S128"
target triple = "x86_64-pc-linux-gnu"

; Function Attrs: nofree nosync nounwind readnone uwtable
define dso_local i32 @ackermann(i32 noundef %m, i32 noundef %n) local_unnamed_addr #0 {
entry:
  %cmp = icmp eq i32 %m, 0
  br i1 %cmp, label %if.then, label %if.end

if.then:                                          ; preds = %entry
  %add = add i32 %n, 1
  br label %return

if.end:                                           ; preds = %entry
  %cmp1 = icmp eq i32 %n, 0
  %sub = add i32 %m, -1
  br i1 %cmp1, label %if.then2, label %if.end3

if.then2:                                         ; preds = %if.end
  %call = call i32 @ackermann(i32 noundef %sub, i32 noundef 1)
  br label %return

if.end3:                                          ; preds = %if.end
  %sub5 = add i32 %n, -1
  %call6 = call i32 @ackermann(i32 noundef %m, i32 noundef %sub5)
  %call7 = call i32 @ackermann(i32 noundef %sub, i32 noundef %call6)
  br label %return

return:                                           ; preds = %if.end3, %if.then2, %if.then
  %retval.0 = phi i32 [ %add, %if.then ], [ %call, %if.then2 ], [ %call7, %if.end3 ]
  ret i32 %retval.0
}

attributes #0 = { nofree nosync nounwind readnone uwtable "frame-pointer"="none" "min-legal-vector-width"="0" "no-trapping-math"="true" "stack-protector-buffer-size"="8" "target-cpu"="x86-64" "target-features"="+cx8,+fxsr,+mmx,+sse,+sse2,+x87" "tune-cpu"="generic" }

!llvm.module.flags = !{!0, !1, !2, !3}
!llvm.ident = !{!4}

!0 = !{i32 1, !"wchar_size", i32 4}
!1 = !{i32 7, !"PIC Level", i32 2}
!2 = !{i32 7, !"PIE Level", i32 2}
!3 = !{i32 7, !"uwtable", i32 1}
!4 = !{!"Debian clang version 14.0.6"}
