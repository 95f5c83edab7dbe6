; ModuleID = 'list.c'
source_filename = "list.c"
target datalayout = "e-m:e-p270:32:32-p271:32:32-p272:64:64-i64:64-f80:128-n8:16:32:64-S128"
target triple = "x86_64-pc-linux-gnu"

%struct.node = type { i32, %struct.node* }

; Function Attrs: nofree norecurse nosync nounwind uwtable
define dso_local %struct.node* @reversed(%struct.node* noundef %list) local_unnamed_addr #0 {
entry:
  %tobool.not9 = icmp eq %struct.node* %list, null
  br i1 %tobool.not9, label %while.end, label %while.body

while.body:                                       ; preds = %entry, %while.body
  %list.addr.011 = phi %struct.node* [ %0, %while.body ], [ %list, %entry ]
  %found.010 = phi %struct.node* [ %list.addr.011, %while.body ], [ null, %entry ]
  %next1 = getelementptr inbounds %struct.node, %struct.node* %list.addr.011, i64 0, i32 1
  %0 = load %struct.node*, %struct.node** %next1, align 8, !tbaa !5
  store %struct.node* %found.010, %struct.node** %next1, align 8, !tbaa !5
  %tobool.not = icmp eq %struct.node* %0, null
  br i1 %tobool.not, label %while.end, label %while.body, !llvm.loop !11

while.end:                                        ; preds = %while.body, %entry
  %found.0.lcssa = phi %struct.node* [ null, %entry ], [ %list.addr.011, %while.body ]
  ret %struct.node* %found.0.lcssa
}

; Function Attrs: nofree norecurse nosync nounwind readonly uwtable
define dso_local %struct.node* @find(%struct.node* noundef readonly %list, i32 noundef %value) local_unnamed_addr #1 {
entry:
  %tobool.not5 = icmp eq %struct.node* %list, null
  br i1 %tobool.not5, label %while.end, label %land.rhs

land.rhs:                                         ; preds = %entry, %while.body
  %list.addr.06 = phi %struct.node* [ %1, %while.body ], [ %list, %entry ]
  %value1 = getelementptr inbounds %struct.node, %struct.node* %list.addr.06, i64 0, i32 0
  %0 = load i32, i32* %value1, align 8, !tbaa !14
  %cmp.not = icmp eq i32 %0, %value
  br i1 %cmp.not, label %while.end, label %while.body

while.body:                                       ; preds = %land.rhs
  %next = getelementptr inbounds %struct.node, %struct.node* %list.addr.06, i64 0, i32 1
  %1 = load %struct.node*, %struct.node** %next, align 8, !tbaa !5
  %tobool.not = icmp eq %struct.node* %1, null
  br i1 %tobool.not, label %while.end, label %land.rhs, !llvm.loop !15

while.end:                                        ; preds = %land.rhs, %while.body, %entry
  %list.addr.0.lcssa = phi %struct.node* [ %list, %entry ], [ %list.addr.06, %land.rhs ], [ %1, %while.body ]
  ret %struct.node* %list.addr.0.lcssa
}

attributes #0 = { nofree norecurse nosync nounwind uwtable "frame-pointer"="none" "min-legal-vector-width"="0" "no-trapping-math"="true" "stack-protector-buffer-size"="8" "target-cpu"="x86-64" "target-features"="+cx8,+fxsr,+mmx,+sse,+sse2,+x87" "tune-cpu"="generic" }
attributes #1 = { nofree norecurse nosync nounwind readonly uwtable "frame-pointer"="none" "min-legal-vector-width"="0" "no-trapping-math"="true" "stack-protector-buffer-size"="8" "target-cpu"="x86-64" "target-features"="+cx8,+fxsr,+mmx,+sse,+sse2,+x87" "tune-cpu"="generic" }

!llvm.module.flags = !{!0, !1, !2, !3}
!llvm.ident = !{!4}

!0 = !{i32 1, !"wchar_size", i32 4}
!1 = !{i32 7, !"PIC Level", i32 2}
!2 = !{i32 7, !"PIE Level", i32 2}
!3 = !{i32 7, !"uwtable", i32 1}
!4 = !{!"Debian clang version 14.0.6"}
!5 = !{!6, !10, i64 8}
!6 = !{!"node", !7, i64 0, !10, i64 8}
!7 = !{!"int", !8, i64 0}
!8 = !{!"omnipotent char", !9, i64 0}
!9 = !{!"Simple C/C++ TBAA"}
!10 = !{!"any pointer", !8, i64 0}
!11 = distinct !{!11, !12, !13}
!12 = !{!"llvm.loop.mustprogress"}
!13 = !{!"llvm.loop.unroll.disable"}
!14 = !{!6, !7, i64 0}
!15 = distinct !{!15, !12, !13}
