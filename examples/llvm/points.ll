; ModuleID = 'points.c'
source_filename = "points.c"
target datalayout = "e-m:e-p270:32:32-p271:32:32-p272:64:64-i64:64-f80:128-n8:16:32:64-S128"
target triple = "x86_64-pc-linux-gnu"

%struct.shape = type { [8 x i8], [4 x %struct.point], double }
%struct.point = type { i32, i32 }

; Function Attrs: nofree norecurse nosync nounwind readonly uwtable
define dso_local i64 @center(%struct.shape* nocapture noundef readonly %shape) local_unnamed_addr #0 {
entry:
  br label %for.body

for.cond.cleanup:                                 ; preds = %for.body
  %div = sdiv i32 %add, 4
  %div9 = sdiv i32 %add6, 4
  %retval.sroa.6.0.insert.ext = zext i32 %div9 to i64
  %retval.sroa.6.0.insert.shift = shl nuw i64 %retval.sroa.6.0.insert.ext, 32
  %retval.sroa.0.0.insert.ext = zext i32 %div to i64
  %retval.sroa.0.0.insert.insert = or i64 %retval.sroa.6.0.insert.shift, %retval.sroa.0.0.insert.ext
  ret i64 %retval.sroa.0.0.insert.insert

for.body:                                         ; preds = %entry, %for.body
  %indvars.iv = phi i64 [ 0, %entry ], [ %indvars.iv.next, %for.body ]
  %retval.sroa.0.023 = phi i32 [ 0, %entry ], [ %add, %for.body ]
  %retval.sroa.6.022 = phi i32 [ 0, %entry ], [ %add6, %for.body ]
  %x = getelementptr inbounds %struct.shape, %struct.shape* %shape, i64 0, i32 1, i64 %indvars.iv, i32 0
  %0 = load i32, i32* %x, align 8, !tbaa !5
  %add = add nsw i32 %0, %retval.sroa.0.023
  %y = getelementptr inbounds %struct.shape, %struct.shape* %shape, i64 0, i32 1, i64 %indvars.iv, i32 1
  %1 = load i32, i32* %y, align 4, !tbaa !10
  %add6 = add nsw i32 %1, %retval.sroa.6.022
  %indvars.iv.next = add nuw nsw i64 %indvars.iv, 1
  %exitcond.not = icmp eq i64 %indvars.iv.next, 4
  br i1 %exitcond.not, label %for.cond.cleanup, label %for.body, !llvm.loop !11
}

attributes #0 = { nofree norecurse nosync nounwind readonly uwtable "frame-pointer"="none" "min-legal-vector-width"="0" "no-trapping-math"="true" "stack-protector-buffer-size"="8" "target-cpu"="x86-64" "target-features"="+cx8,+fxsr,+mmx,+sse,+sse2,+x87" "tune-cpu"="generic" }

!llvm.module.flags = !{!0, !1, !2, !3}
!llvm.ident = !{!4}

!0 = !{i32 1, !"wchar_size", i32 4}
!1 = !{i32 7, !"PIC Level", i32 2}
!2 = !{i32 7, !"PIE Level", i32 2}
!3 = !{i32 7, !"uwtable", i32 1}
!4 = !{!"Debian clang version 14.0.6"}
!5 = !{!6, !7, i64 0}
!6 = !{!"point", !7, i64 0, !7, i64 4}
!7 = !{!"int", !8, i64 0}
!8 = !{!"omnipotent char", !9, i64 0}
!9 = !{!"Simple C/C++ TBAA"}
!10 = !{!6, !7, i64 4}
!11 = distinct !{!11, !12, !13}
!12 = !{!"llvm.loop.mustprogress"}
!13 = !{!"llvm.loop.unroll.disable"}
