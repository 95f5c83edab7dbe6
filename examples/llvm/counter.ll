; ModuleID = 'counter.c'
source_filename = "counter.c"
target datalayout = "e-m:e-p270:32:32-p271:32:32-p272:64:64-i64:64-f80:128-n8:16:32:64-S128"
target triple = "x86_64-pc-linux-gnu"

@visits = dso_local thread_local local_unnamed_addr global i64 1, align 8
@users = internal global i32 0, align 4
@stopped = dso_local global i32 0, align 4

; Function Attrs: nofree norecurse nounwind uwtable
define dso_local i32 @enter(i32 noundef %most) local_unnamed_addr #0 {
entry:
  %0 = load atomic i32, i32* @users monotonic, align 4
  br label %while.cond

while.cond:                                       ; preds = %while.body, %entry
  %seen.0 = phi i32 [ %0, %entry ], [ %5, %while.body ]
  %1 = load volatile i32, i32* @stopped, align 4, !tbaa !5
  %tobool.not = icmp eq i32 %1, 0
  %cmp = icmp slt i32 %seen.0, %most
  %2 = select i1 %tobool.not, i1 %cmp, i1 false
  br i1 %2, label %while.body, label %cleanup

while.body:                                       ; preds = %while.cond
  %add = add nsw i32 %seen.0, 1
  %3 = cmpxchg weak i32* @users, i32 %seen.0, i32 %add seq_cst seq_cst, align 4
  %4 = extractvalue { i32, i1 } %3, 1
  %5 = extractvalue { i32, i1 } %3, 0
  br i1 %4, label %if.then, label %while.cond, !llvm.loop !9

if.then:                                          ; preds = %while.body
  %6 = load i64, i64* @visits, align 8, !tbaa !12
  %inc = add nsw i64 %6, 1
  store i64 %inc, i64* @visits, align 8, !tbaa !12
  br label %cleanup

cleanup:                                          ; preds = %while.cond, %if.then
  %retval.0 = phi i32 [ 1, %if.then ], [ 0, %while.cond ]
  ret i32 %retval.0
}

; Function Attrs: mustprogress nofree norecurse nounwind uwtable willreturn
define dso_local void @leave() local_unnamed_addr #1 {
entry:
  %0 = atomicrmw sub i32* @users, i32 1 seq_cst, align 4
  fence release
  ret void
}

attributes #0 = { nofree norecurse nounwind uwtable "frame-pointer"="none" "min-legal-vector-width"="0" "no-trapping-math"="true" "stack-protector-buffer-size"="8" "target-cpu"="x86-64" "target-features"="+cx8,+fxsr,+mmx,+sse,+sse2,+x87" "tune-cpu"="generic" }
attributes #1 = { mustprogress nofree norecurse nounwind uwtable willreturn "frame-pointer"="none" "min-legal-vector-width"="0" "no-trapping-math"="true" "stack-protector-buffer-size"="8" "target-cpu"="x86-64" "target-features"="+cx8,+fxsr,+mmx,+sse,+sse2,+x87" "tune-cpu"="generic" }

!llvm.module.flags = !{!0, !1, !2, !3}
!llvm.ident = !{!4}

!0 = !{i32 1, !"wchar_size", i32 4}
!1 = !{i32 7, !"PIC Level", i32 2}
!2 = !{i32 7, !"PIE Level", i32 2}
!3 = !{i32 7, !"uwtable", i32 1}
!4 = !{!"Debian clang version 14.0.6"}
!5 = !{!6, !6, i64 0}
!6 = !{!"int", !7, i64 0}
!7 = !{!"omnipotent char", !8, i64 0}
!8 = !{!"Simple C/C++ TBAA"}
!9 = distinct !{!9, !10, !11}
!10 = !{!"llvm.loop.mustprogress"}
!11 = !{!"llvm.loop.unroll.disable"}
!12 = !{!13, !13, i64 0}
!13 = !{!"long", !7, i64 0}
