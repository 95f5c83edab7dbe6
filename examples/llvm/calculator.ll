; ModuleID = 'calculator.c'
source_filename = "calculator.c"
target datalayout = "e-m:e-p270:32:32-p271:32:32-p272:64:64-i64:64-f80:128-n8:16:32:64-S128"
target triple = "x86_64-pc-linux-gnu"

@operations = internal unnamed_addr constant [2 x i64 (i64, i64)*] [i64 (i64, i64)* @plus, i64 (i64, i64)* @times], align 16

; Function Attrs: nounwind uwtable
define dso_local i64 @calculate(i32 noundef %which, i64 noundef %a, i64 noundef %b) local_unnamed_addr #0 {
entry:
  %idxprom = sext i32 %which to i64
  %arrayidx = getelementptr inbounds [2 x i64 (i64, i64)*], [2 x i64 (i64, i64)*]* @operations, i64 0, i64 %idxprom
  %0 = load i64 (i64, i64)*, i64 (i64, i64)** %arrayidx, align 8, !tbaa !5
  %call = call i64 %0(i64 noundef %a, i64 noundef %b) #2
  ret i64 %call
}

; Function Attrs: nounwind uwtable
define dso_local i64 @folded(i64 (i64, i64)* nocapture noundef readonly %combine, i64* nocapture noundef readonly %numbers, i32 noundef %count, i64 noundef %first) local_unnamed_addr #0 {
entry:
  %tobool.not2 = icmp eq i32 %count, 0
  br i1 %tobool.not2, label %while.end, label %while.body

while.body:                                       ; preds = %entry, %while.body
  %first.addr.05 = phi i64 [ %call, %while.body ], [ %first, %entry ]
  %count.addr.04 = phi i32 [ %dec, %while.body ], [ %count, %entry ]
  %numbers.addr.03 = phi i64* [ %incdec.ptr, %while.body ], [ %numbers, %entry ]
  %dec = add nsw i32 %count.addr.04, -1
  %incdec.ptr = getelementptr inbounds i64, i64* %numbers.addr.03, i64 1
  %0 = load i64, i64* %numbers.addr.03, align 8, !tbaa !9
  %call = call i64 %combine(i64 noundef %first.addr.05, i64 noundef %0) #2
  %tobool.not = icmp eq i32 %dec, 0
  br i1 %tobool.not, label %while.end, label %while.body, !llvm.loop !11

while.end:                                        ; preds = %while.body, %entry
  %first.addr.0.lcssa = phi i64 [ %first, %entry ], [ %call, %while.body ]
  ret i64 %first.addr.0.lcssa
}

; Function Attrs: mustprogress nofree norecurse nosync nounwind readnone uwtable willreturn
define internal i64 @plus(i64 noundef %a, i64 noundef %b) #1 {
entry:
  %add = add nsw i64 %b, %a
  ret i64 %add
}

; Function Attrs: mustprogress nofree norecurse nosync nounwind readnone uwtable willreturn
define internal i64 @times(i64 noundef %a, i64 noundef %b) #1 {
entry:
  %mul = mul nsw i64 %b, %a
  ret i64 %mul
}

attributes #0 = { nounwind uwtable "frame-pointer"="none" "min-legal-vector-width"="0" "no-trapping-math"="true" "stack-protector-buffer-size"="8" "target-cpu"="x86-64" "target-features"="+cx8,+fxsr,+mmx,+sse,+sse2,+x87" "tune-cpu"="generic" }
attributes #1 = { mustprogress nofree norecurse nosync nounwind readnone uwtable willreturn "frame-pointer"="none" "min-legal-vector-width"="0" "no-trapping-math"="true" "stack-protector-buffer-size"="8" "target-cpu"="x86-64" "target-features"="+cx8,+fxsr,+mmx,+sse,+sse2,+x87" "tune-cpu"="generic" }
attributes #2 = { nounwind }

!llvm.module.flags = !{!0, !1, !2, !3}
!llvm.ident = !{!4}

!0 = !{i32 1, !"wchar_size", i32 4}
!1 = !{i32 7, !"PIC Level", i32 2}
!2 = !{i32 7, !"PIE Level", i32 2}
!3 = !{i32 7, !"uwtable", i32 1}
!4 = !{!"Debian clang version 14.0.6"}
!5 = !{!6, !6, i64 0}
!6 = !{!"any pointer", !7, i64 0}
!7 = !{!"omnipotent char", !8, i64 0}
!8 = !{!"Simple C/C++ TBAA"}
!9 = !{!10, !10, i64 0}
!10 = !{!"long", !7, i64 0}
!11 = distinct !{!11, !12, !13}
!12 = !{!"llvm.loop.mustprogress"}
!13 = !{!"llvm.loop.unroll.disable"}
