; ModuleID = 'days.c'
source_filename = "days.c"
target datalayout = "e-m:e-p270:32:32-p271:32:32-p272:64:64-i64:64-f80:128-n8:16:32:64-S128"
target triple = "x86_64-pc-linux-gnu"

; Function Attrs: mustprogress nofree norecurse nosync nounwind readnone uwtable willreturn
define dso_local i32 @days(i32 noundef %month, i32 noundef %leap) local_unnamed_addr #0 {
entry:
  switch i32 %month, label %sw.default [
    i32 2, label %sw.bb
    i32 4, label %return
    i32 6, label %return
    i32 9, label %return
    i32 11, label %return
  ]

sw.bb:                                            ; preds = %entry
  %add = add nsw i32 %leap, 28
  br label %return

sw.default:                                       ; preds = %entry
  br label %return

return:                                           ; preds = %entry, %entry, %entry, %entry, %sw.default, %sw.bb
  %retval.0 = phi i32 [ 31, %sw.default ], [ %add, %sw.bb ], [ 30, %entry ], [ 30, %entry ], [ 30, %entry ], [ 30, %entry ]
  ret i32 %retval.0
}

attributes #0 = { mustprogress nofree norecurse nosync nounwind readnone uwtable willreturn "frame-pointer"="none" "min-legal-vector-width"="0" "no-trapping-math"="true" "stack-protector-buffer-size"="8" "target-cpu"="x86-64" "target-features"="+cx8,+fxsr,+mmx,+sse,+sse2,+x87" "tune-cpu"="generic" }

!llvm.module.flags = !{!0, !1, !2, !3}
!llvm.ident = !{!4}

!0 = !{i32 1, !"wchar_size", i32 4}
!1 = !{i32 7, !"PIC Level", i32 2}
!2 = !{i32 7, !"PIE Level", i32 2}
!3 = !{i32 7, !"uwtable", i32 1}
!4 = !{!"Debian clang version 14.0.6"}
