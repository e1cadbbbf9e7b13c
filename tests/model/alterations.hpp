// Deliberate errors of the model. Each is switched on by its number; a run that does not find it would be blind to it.
#ifndef ALTERATIONS_HPP
#define ALTERATIONS_HPP

namespace model {

// letter of the request ('0': the base, document 01), name, what the altered model does
#define VMD_ALTERATIONS(X)                                                                                                   \
    X('0', MagicWhole, "asks all 30 bytes of the magic")                                                                     \
    X('0', ShortHeaderIs2, "a newer header of fewer than 50 bytes is 2")                                                     \
    X('0', OversizedCameraRefused, "an oversized camera count is 1")                                                         \
    X('0', LightsAfterOversized, "reads lights after an oversized camera count")                                             \
    X('0', OversizedShadowRefused, "an oversized self-shadow count is 1")                                                    \
    X('0', BytesOverRefused, "bytes after the last property frame are 1")                                                    \
    X('0', ThreeBytesAreNone, "one to three bytes left at a count are taken as none")                                        \
    X('0', BoneCountOptional, "a file of 50 bytes is accepted")                                                              \
    X('0', PlaceBeforeCount, "a section's place is before its count")                                                        \
    X('0', MissingPlaceZero, "the place of a missing section is 0")                                                          \
    X('0', EmptiedPlaceKept, "the place of an emptied section is just after its count")                                      \
    X('0', IkOfLastFrame, "the IK states are those of the last property frame")                                              \
    X('0', PerspectiveOne, "perspective is true for the byte 1")                                                             \
    X('0', NameWholeField, "a name does not end before its first zero byte")                                                 \
    X('0', VisibleOnlyOne, "visible is true for the byte 1 alone")                                                           \
    X('0', EnabledOnlyOne, "IK enabled is true for the byte 1 alone")                                                        \
    X('0', ModeFlag, "the self-shadow mode is cut to 0, 1 or 2")                                                             \
    X('0', ZeroesMerged, "a float -0 is written as +0")                                                                      \
    X('0', NanMerged, "every NaN is written as the same NaN")                                                                \
    X('0', ModelNameUntested, "the model name is given where the magic differs")                                             \
    X('0', ModelNameOfAccepted, "the model name is empty where the file is refused after its header")                        \
    X('0', FetchAtCount, "the record at the count is fetched")                                                               \
    X('0', FetchWraps, "a place whose sum wraps is taken as it comes out")                                                   \
    X('0', FetchOneShort, "a record that ends with the file is 4")                                                           \
    X('0', IkAtCount, "the IK state at the frame's count is fetched")                                                        \
    X('0', CountsNotAsked, "a fetch looks at places only, not at the count")                                                 \
    X('0', ExactIs13, "an output of just the export's length is 13")                                                         \
    X('0', OutputCleared, "the rest of the output is set to zero")                                                           \
    X('0', RefusedWritesSize, "written receives the length although the output is too short")                                \
    X('0', JoinSwapped, "every section is the second file's records, then the first's")                                      \
    X('0', JoinMorphsSwapped, "the morphs alone are the second file's, then the first's")                                    \
    X('0', JoinModelSecond, "the joined model name is the second's where that is not empty")                                 \
    X('0', JoinSecondRefusedFirst, "joining tests the second file before the first")                                         \
    X('0', BuildColumnsFirst, "building tests 10 before cameras")                                                            \
    X('0', BuildFloatFirst, "of one bone or morph, 8 is tested before 12")                                                   \
    X('0', BuildIndicesFirst, "12 is tested for all bones before 8 for any")                                                 \
    X('0', BuildMode3, "a self-shadow mode of 3 is taken")                                                                   \
    X('0', BuildName16, "a table name of 16 bytes is taken")                                                                 \
    X('0', BuildMorphNamesFirst, "morph names are tested before bone names")                                                 \
    X('0', BuildAllSixesFirst, "6 is tested for all names of a table before 7 for any")                                      \
    X('0', BuildViewFinite, "the field of view is tested as a float")                                                        \
    X('0', BuildFallingEnds, "a name table may fall")                                                                        \
    X('0', BuildWholeLast, "5 of record bytes is tested after the names")                                                    \
    X('0', BuildIkBeforeShadows, "IK names are tested before self-shadows")                                                  \
    X('0', BuildIkWholeField, "an IK name's bytes after its first zero are tested too")                                      \
    X('0', BuildInfinityTaken, "an infinity is taken for finite")                                                            \
    X('a', SplitLastAppearance, "table names stand in order of last appearance")                                             \
    X('a', SplitRawFields, "names are told apart by their whole fields")                                                     \
    X('a', SplitLineFeed, "names are told apart up to the line feed")                                                        \
    X('a', SplitExactIs14, "a buffer of just the needed length is 14")                                                       \
    X('a', SplitRestCleared, "places past those written are set to zero")                                                    \
    X('a', SplitRawFlags, "camera records keep their perspective byte")                                                      \
    X('a', SplitBytes15, "15 bytes are counted for each name")                                                               \
    X('a', SplitPropertiesShort, "the property buffer needs 9p bytes only")                                                  \
    X('a', SplitBeginnings, "a table holds where names begin")                                                               \
    X('a', SplitSizesOn14, "sizes is written although the answer is 14")                                                     \
    X('a', SplitEmptyNameNone, "the empty name is no table entry")                                                           \
    X('b', SeasonEmptyNotSmallest, "a section without records does not count for the smallest")                              \
    X('b', SeasonRefusedAdds, "a take that would pass 64 bits adds to the largest counts")                                   \
    X('b', SeasonRefusedWraps, "the refused number wraps")                                                                   \
    X('b', SeasonSmallestStays, "with none accepted the smallest is below what stood there")                                 \
    X('b', SeasonFirstFive, "the mean's total leaves out properties")                                                        \
    X('b', SeasonExactRefused, "a figure that comes to its largest value is refused")                                        \
    X('b', SeasonMeanNone, "with none accepted the mean divides by one")                                                     \
    X('b', SeasonLargestLast, "largest is the last take's")                                                                  \
    X('b', SeasonRawFields, "names are told apart by their whole fields")                                                    \
    X('b', SeasonNameRecords, "each record's name is counted")                                                               \
    X('b', SeasonMeanRounded, "the mean is rounded up")                                                                      \
    X('b', SeasonRefusedStops, "a take refused at the refused number's end adds to accepted")                                \
    X('c', SmallestNoneLargest, "with no records the smallest frame is 4,294,967,295")                                       \
    X('c', SmallestTwoSections, "the smallest frame is over bones and morphs")                                               \
    X('c', SmallestEmptySections, "an empty section counts as frame 0")                                                      \
    X('c', SmallestNoProperties, "property frames do not count")                                                             \
    X('c', SmallestFirstRecords, "only the first record of each section counts")                                             \
    X('c', SmallestAfterLargest, "the smallest frame stands after the largest")                                              \
    X('c', SmallestNotZero, "frame 0 does not count")                                                                        \
    X('c', SmallestJoinEmpty, "in joining a take without records counts as frame 0")                                         \
    X('d', FaultSecondByte, "of a bad pair the second byte's place is given")                                                \
    X('d', FaultA0Good, "the byte 0xA0 is good")                                                                             \
    X('d', FaultTrail7F, "0x7F is a trail")                                                                                  \
    X('d', FaultTrail80, "0x80 is no trail")                                                                                 \
    X('d', FaultSingle80, "0x80 is not good")                                                                                \
    X('d', FaultLeadFD, "0xFD is a lead, and its pairs have characters")                                                     \
    X('d', FaultLoneLead, "a lead at the end is good")                                                                       \
    X('d', FaultLast, "the last fault is given")                                                                             \
    X('d', FaultLeadE0, "0xE0 is no lead")                                                                                   \
    X('e', OlderLimit9, "a model name of 10 bytes is 15")                                                                    \
    X('e', OlderLimit11, "a model name of 11 bytes is taken")                                                                \
    X('e', OlderShortIs2, "an older file of fewer than 40 bytes is 2")                                                       \
    X('e', OlderAfter13, "15 is tested after 13")                                                                            \
    X('e', OlderNameOf20, "an older file has a model name of 20 bytes")                                                      \
    X('e', OlderMagicLeft, "the converter writes the newer magic")                                                           \
    X('e', OlderPlacesWidened, "places are those after the header was widened")                                              \
    X('e', OlderStillRefused, "older files are 2")                                                                           \
    X('e', OlderMagicNoZero, "the older magic is asked without its zero byte")                                               \
    X('e', OlderFieldKept, "the converter copies bytes 26 to 29 of the file")                                                \
    X('e', OlderExported, "the export of an older file is of the older edition")                                             \
    X('f', ScratchEachEighth, "a place for each 8th frame")                                                                  \
    X('f', ScratchRoundedDown, "a sixteenth of the frames, rounded down, is enough")                                         \
    X('f', ScratchEachFrame, "refusal 3 where the scratch has fewer places than frames")                                     \
    X('f', WalkSixteen, "frame 16 is found by a walk from place 0")                                                          \
    X('f', WalkUnchecked, "a frame walked over needs its nine bytes in the file only")                                       \
    X('f', WalkAskedWhole, "the frame asked for needs its IK states in the file")                                            \
    X('f', WalkFromLast, "where the scratch is too short the walk starts at its last place")                                 \
    X('f', WalkAtOneShort, "property_frame_at asks for one byte after the frame")                                            \
    X('f', ScratchRestCleared, "further places are set to zero")                                                             \
    X('g', TidyFirstKept, "the first record of a frame is kept")                                                             \
    X('g', TidyUnsorted, "records stay in file order")                                                                       \
    X('g', TidyDescending, "tracks are sorted the other way")                                                                \
    X('g', TidySigned, "frames are compared as signed numbers")                                                              \
    X('g', TidyOneTrack, "bones are one track")                                                                              \
    X('g', TidyTracksByName, "tracks stand in order of their names")                                                         \
    X('g', TidyScratchLeft, "the scratch keeps its contents")                                                                \
    X('g', TidyScratchAll, "the whole scratch is set to zero")                                                               \
    X('g', TidyScratchBones, "the scratch has one place per bone")                                                           \
    X('g', TidyThreeLast, "3 is tested after 13")                                                                            \
    X('g', TidyDropsNoProperty, "property frames are not dropped")                                                           \
    X('g', TidyKeptIsRead, "kept is the number of records read")                                                             \
    X('g', TidyNothingDropped, "each record is a track of its own")                                                           \
    X('g', TidyModelDropped, "the model name is not kept")                                                                   \
    X('h', PairAny, "every pair of a lead and a trail is good")                                                              \
    X('h', PairLead81, "the lead's offset is 0x81 from 0xE0 on too")                                                         \
    X('h', PairTrail40, "the trail's offset is 0x40 from 0x80 on too")                                                       \
    X('h', PairFrom8835, "the range begins at 8835")                                                                         \
    X('h', PairFrom8837, "the range begins at 8837")                                                                         \
    X('h', PairTo10714, "the range ends at 10714")                                                                           \
    X('h', PairNoRange, "the index alone counts")                                                                            \
    X('h', PairNoRow13, "NEC's row 13 is missing")                                                                           \
    X('h', PairNoRow30, "row 30 is missing")                                                                                 \
    X('h', PairNoNecChoice, "rows 89 to 92 are missing, as where WHATWG encodes")                                            \
    X('h', PairNoIbm, "rows 115 to 119 are missing")                                                                         \
    X('h', PairWholeRow47, "row 47 has all cells")                                                                           \
    X('h', PairHoleOfRow92, "row 92 has all cells")                                                                          \
    X('h', PairCellMore, "row 84 has a seventh cell")                                                                        \
    X('h', PairCellMoreOfRow2, "row 2 has cell 15")                                                                          \
    X('h', PairCellLess, "row 119 ends at cell 11")                                                                          \
    X('h', PairLoneCellLess, "row 2 has no cell 94")                                                                         \
    X('h', PairCellLost, "row 60 has no cell 47")                                                                            \
    X('h', PairLastIsEnd, "every pair after the index's last is good")                                                       \
    X('h', PairFaultAtTrail, "of a pair without a character the trail's place is given")                                     \
    X('h', PairModelOnly, "the builder judges pairs in the model name only")                                                 \
    X('h', PairNotModel, "pairs are not judged in the model name")                                                           \
    X('h', PairNotBones, "pairs are not judged in bone names")                                                               \
    X('h', PairNotMorphs, "pairs are not judged in morph names")                                                             \
    X('h', PairNotIks, "pairs are not judged in IK names")                                                                   \
    X('h', PairNotBuilder, "pairs are judged by vmd_first_fault only")                                                       \
    X('h', PairNotAlone, "pairs are judged by the builder only")                                                             \
    X('h', PairMarkPassed, "0xEF 0xBB 0xBF in front of a name is passed over")                                               \
    X('i', StrictCamerasEmptied, "an oversized camera count is emptied in the strict manner")                                \
    X('i', StrictLightsEmptied, "an oversized light count is emptied in the strict manner")                                  \
    X('i', StrictShadowsEmptied, "an oversized self-shadow count is emptied in the strict manner")                           \
    X('i', StrictLargestEmptied, "a count of 4,294,967,295 is emptied in the strict manner")                                 \
    X('i', StrictOneRecordMore, "one record more than there is room for is emptied in the strict manner")                    \
    X('i', StrictOneByteShort, "records that miss one byte are emptied in the strict manner")                                \
    X('i', StrictNothingBehind, "an oversized count at the file's end is emptied in the strict manner")                      \
    X('i', StrictBonesAre17, "an oversized bone count is 17")                                                                \
    X('i', StrictMorphsAre17, "an oversized morph count is 17")                                                              \
    X('i', StrictPropertiesAre17, "an oversized property count is 17")                                                       \
    X('i', StrictIksAre17, "property frames that the file ends in are 17")                                                   \
    X('i', StrictCutCountIs17, "one to three bytes at a camera, light or self-shadow count are 17")                          \
    X('i', StrictMissingRefused, "a missing section is 1 in the strict manner")                                              \
    X('i', StrictOversizedIs1, "an oversized count is 1 in the strict manner")                                               \
    X('i', StrictOverIs1, "bytes over are 1 in the strict manner")                                                           \
    X('i', StrictNumbersSwapped, "16 and 17 are exchanged")                                                                  \
    X('i', StrictOverAfterFrames, "bytes over are looked for only after property frames that are there")                     \
    X('i', StrictOverAfterNone, "bytes over are looked for only after a property count of 0")                                \
    X('i', StrictOneByteOver, "one byte over is ignored")                                                                    \
    X('i', StrictThreeBytesOver, "one to three bytes over are ignored")                                                      \
    X('i', StrictZeroByteOver, "one zero byte over is ignored")                                                              \
    X('i', StrictZerosOver, "bytes over that are all zero are ignored")                                                      \
    X('i', StrictOverBefore1, "16 is given before a 1 that is met in the property frames")                                   \
    X('i', StrictOversizedBefore1, "16 and 17 are given before a 1 that is met at bones or morphs")                          \
    X('i', StrictBefore2, "16 and 17 are given before 2")                                                                    \
    X('i', OlderFilesLenient, "older files are read in the lenient manner")                                                  \
    X('i', OlderFilesStrict, "older files are read in the strict manner")                                                    \
    X('i', LenientLights17, "an oversized light count is 17 in the lenient manner too")                                      \
    X('i', LenientOver16, "bytes over are 16 in the lenient manner too")                                                     \
    X('i', StrictParseAfter3, "opening tests 16 and 17 after 3")                                                             \
    X('i', StrictExportAfter13, "export tests 16 and 17 after 13")                                                           \
    X('i', StrictOlderAfter15, "the converter tests 16 and 17 after 15")                                                     \
    X('i', StrictOlderAfter13, "the converter tests 16 and 17 after 13")                                                     \
    X('i', StrictJoinAfter13, "joining tests 16 and 17 after 13")                                                            \
    X('i', StrictTidyAfter3, "tidying tests 16 and 17 after 3")                                                              \
    X('i', StrictTidyAfter13, "tidying tests 16 and 17 after 13")                                                            \
    X('i', StrictSplitAfter14, "the split tests 16 and 17 after 14")                                                         \
    X('i', StrictScratchWritten, "opening has written places when it gives 16 or 17")                                        \
    X('i', StrictSizeWritten, "the export's size is written although the answer is 16 or 17")                                \
    X('i', JoinSecondStrictFirst, "joining gives the second file's 16 or 17 before the first's 1")                           \
    X('i', JoinStrictLast, "joining gives the second file's 1 before the first's 16 or 17")                                  \
    X('i', JoinFirstLenient, "joining reads the first file in the lenient manner")                                           \
    X('i', JoinSecondLenient, "joining reads the second file in the lenient manner")                                         \
    X('i', SeasonStrict, "the season reads takes in the strict manner")                                                      \
    X('i', ModelNameStrict, "the model name is empty where the answer is 16 or 17")                                          \
    X('i', JoinedModelStrict, "a first file that is 16 or 17 has no model name in a join")                                   \
    X('i', StrictParseLenient, "vmd_parse_animation is lenient")                                                             \
    X('i', StrictExportSizeLenient, "vmd_export_size is lenient")                                                            \
    X('i', StrictExportLenient, "vmd_export_animation is lenient")                                                           \
    X('i', StrictOlderSizeLenient, "vmd_export_older_size is lenient")                                                       \
    X('i', StrictOlderLenient, "vmd_export_older_animation is lenient")                                                      \
    X('i', StrictJoinSizeLenient, "vmd_join_size is lenient")                                                                \
    X('i', StrictJoinLenient, "vmd_join_animations is lenient")                                                              \
    X('i', StrictTidySizeLenient, "vmd_tidy_size is lenient")                                                                \
    X('i', StrictTidyLenient, "vmd_tidy_animation is lenient")                                                               \
    X('i', StrictSplitSizesLenient, "vmd_split_sizes is lenient")                                                            \
    X('i', StrictSplitLenient, "vmd_split_animation_into_parts is lenient")                                                  \
    X('j', StrictExcerptSizeLenient, "vmd_excerpt_size is lenient")                                                          \
    X('j', StrictExcerptLenient, "vmd_excerpt_animation is lenient")                                                         \
    X('i', LenientParseStrict, "vmd_parse_animation_lenient is strict")                                                      \
    X('i', LenientExportSizeStrict, "vmd_export_size_lenient is strict")                                                     \
    X('i', LenientExportStrict, "vmd_export_animation_lenient is strict")                                                    \
    X('i', LenientOlderSizeStrict, "vmd_export_older_size_lenient is strict")                                                \
    X('i', LenientOlderStrict, "vmd_export_older_animation_lenient is strict")                                               \
    X('i', LenientJoinSizeStrict, "vmd_join_size_lenient is strict")                                                         \
    X('i', LenientJoinStrict, "vmd_join_animations_lenient is strict")                                                       \
    X('i', LenientTidySizeStrict, "vmd_tidy_size_lenient is strict")                                                         \
    X('i', LenientTidyStrict, "vmd_tidy_animation_lenient is strict")                                                        \
    X('i', LenientSplitSizesStrict, "vmd_split_sizes_lenient is strict")                                                     \
    X('i', LenientSplitStrict, "vmd_split_animation_into_parts_lenient is strict")                                           \
    X('j', LenientExcerptSizeStrict, "vmd_excerpt_size_lenient is strict")                                                   \
    X('j', LenientExcerptStrict, "vmd_excerpt_animation_lenient is strict")                                                  \
    X('j', ExcerptBonesUnmoved, "bones keep their frames")                                                                   \
    X('j', ExcerptMorphsUnmoved, "morphs keep their frames")                                                                 \
    X('j', ExcerptCamerasUnmoved, "cameras keep their frames")                                                               \
    X('j', ExcerptLightsUnmoved, "lights keep their frames")                                                                 \
    X('j', ExcerptShadowsUnmoved, "self-shadows keep their frames")                                                          \
    X('j', ExcerptPropertiesUnmoved, "property frames keep their frames")                                                    \
    X('j', ExcerptBonesAll, "all bones stay")                                                                                \
    X('j', ExcerptMorphsAll, "all morphs stay")                                                                              \
    X('j', ExcerptCamerasAll, "all cameras stay")                                                                            \
    X('j', ExcerptLightsAll, "all lights stay")                                                                              \
    X('j', ExcerptShadowsAll, "all self-shadows stay")                                                                       \
    X('j', ExcerptPropertiesAll, "all property frames stay")                                                                 \
    X('j', ExcerptBonesNoFirst, "bones of the first frame do not stay")                                                      \
    X('j', ExcerptMorphsNoFirst, "morphs of the first frame do not stay")                                                    \
    X('j', ExcerptCamerasNoFirst, "cameras of the first frame do not stay")                                                  \
    X('j', ExcerptLightsNoFirst, "lights of the first frame do not stay")                                                    \
    X('j', ExcerptShadowsNoFirst, "self-shadows of the first frame do not stay")                                             \
    X('j', ExcerptPropertiesNoFirst, "property frames of the first frame do not stay")                                       \
    X('j', ExcerptBonesNoLast, "bones of the last frame do not stay")                                                        \
    X('j', ExcerptMorphsNoLast, "morphs of the last frame do not stay")                                                      \
    X('j', ExcerptCamerasNoLast, "cameras of the last frame do not stay")                                                    \
    X('j', ExcerptLightsNoLast, "lights of the last frame do not stay")                                                      \
    X('j', ExcerptShadowsNoLast, "self-shadows of the last frame do not stay")                                               \
    X('j', ExcerptPropertiesNoLast, "property frames of the last frame do not stay")                                         \
    X('j', ExcerptSigned, "frames are compared as signed numbers")                                                           \
    X('j', ExcerptLastFromFirst, "the last frame is counted from the first")                                                 \
    X('j', ExcerptEndWraps, "the frame after a last one of 4,294,967,295 is 0, and nothing lies before it")                  \
    X('j', ExcerptFromOne, "the first frame becomes 1")                                                                      \
    X('j', ExcerptSmallestIsZero, "the smallest frame that stays in a section is subtracted")                                \
    X('j', ExcerptSorted, "records are sorted by frame")                                                                     \
    X('j', ExcerptOnePerFrame, "of a section only the last record of each frame stays")                                      \
    X('j', ExcerptModelDropped, "the model name is not kept")                                                                \
    X('j', ExcerptNoneNoModel, "where no record stays the model name is not kept")                                           \
    X('j', ExcerptIksLost, "property frames that stay lose their IK states")                                                 \
    X('j', ExcerptIksOfDropped, "IK states of a frame that goes are added to the frame that stays before it")                \
    X('j', ExcerptIksByNumber, "property frame n that stays has the IK states of the file's frame n")                        \
    X('j', ExcerptCountsOfFile, "the counts are the file's")                                                                 \
    X('j', ExcerptPropertyCountOfFile, "the property count is the file's")                                                   \
    X('j', ExcerptRawNames, "bone names keep their bytes after the first zero")                                              \
    X('j', ExcerptRawFlags, "cameras keep their perspective byte")                                                           \
    X('j', ExcerptOlderKept, "the excerpt of an older file is of the older edition")                                         \
    X('j', ExcerptWholeCopied, "from 0 to 4,294,967,295 the file is copied as it is")                                        \
    X('j', ExcerptAfterOne, "18 is tested after 1")                                                                          \
    X('j', ExcerptAfterTwo, "18 is tested after 2")                                                                          \
    X('j', ExcerptAfterStrict, "18 is tested after 16 and 17")                                                               \
    X('j', ExcerptSizeAfterReading, "the size call tests 18 after the file is read")                                         \
    X('j', ExcerptAfter13, "18 is tested after 13")                                                                          \
    X('j', ExcerptEqualIs18, "18 for a first frame that is the last")                                                        \
    X('j', ExcerptSigned18, "18 is tested with signed numbers")                                                              \
    X('j', ExcerptNo18, "a first frame above the last gives an excerpt without records")                                     \
    X('j', ExcerptSizeNo18, "a first frame above the last gives the size of an excerpt without records")                     \
    X('j', ExcerptExchanged, "a first frame above the last is exchanged with it")                                            \
    X('j', ExcerptExactIs13, "an output of just the excerpt's length is 13")                                                 \
    X('j', ExcerptOneShort, "an output one byte short is written to")                                                        \
    X('j', ExcerptExportIs13, "an output shorter than the export is 13")                                                     \
    X('j', StrictExcerptAfter13, "excerpts test 16 and 17 after 13")                                                         \
    X('j', ExcerptRestCleared, "the rest of the output is set to zero")                                                      \
    X('j', ExcerptRestOfExport, "the rest of the output is set to zero up to the export's length")                           \
    X('j', ExcerptWrittenOfExport, "written receives the export's length")                                                   \
    X('j', ExcerptWrittenOn13, "written receives the length although the output is too short")                               \
    X('j', ExcerptOutputOn13, "the output receives what it has room for although the answer is 13")                          \
    X('j', ExcerptSizeOn18, "size receives 0 although the answer is 18")                                                     \
    X('j', ExcerptSizeOfExport, "the size is the export's")                                                                  \
    X('j', ExcerptSizeNoLast, "the size leaves out the last frame")                                                          \
    X('j', ExcerptSizeNoIks, "the size leaves out IK states")                                                                \
    X('j', ExcerptSizeAllIks, "the size has the IK states of frames that go")                                                \
    X('j', ExcerptTwiceUnended, "an excerpt's excerpt ends beyond the first one's last frame")                               \
    X('j', ExcerptTwiceWraps, "the frames of an excerpt's excerpt are added up in 32 bits")                                  \
    X('j', ExcerptTwiceBeyond, "an excerpt's excerpt that begins beyond the first one's last frame has that frame's records") \
    X('k', TrackReturn, "0x0D cuts, and 0x0A does not")                                                                      \
    X('k', TrackLineEnds, "0x0B and 0x0D cut too")                                                                           \
    X('k', TrackSevenBits, "0x8A cuts too")                                                                                  \
    X('k', TrackLastLineFeed, "a name is cut at its last line feed")                                                         \
    X('k', TrackWithLineFeed, "the line feed belongs to the name of the track")                                              \
    X('k', TrackPlace0, "a line feed in the first byte is passed over")                                                      \
    X('k', TrackPlace7, "a line feed at place 7 is passed over")                                                             \
    X('k', TrackPlace8, "a line feed at place 8 is passed over")                                                             \
    X('k', TrackPlace14, "a line feed in the last byte is passed over")                                                      \
    X('k', TrackAfterZero, "a line feed after the first zero cuts, and what is before it counts")                            \
    X('k', TidyBonesRaw, "bone tracks are told apart by raw names")                                                          \
    X('k', TidyMorphsRaw, "morph tracks are told apart by raw names")                                                        \
    X('k', TidySizeRaw, "vmd_tidy_size measures tracks of raw names")                                                        \
    X('k', TidyShortRaw, "13 is tested with tracks of raw names")                                                            \
    X('k', TidyNumbersRaw, "kept and dropped are those of tracks of raw names")                                              \
    X('k', TidyDropsRaw, "of a frame the last record of each raw name is kept")                                              \
    X('k', TidyStandsRaw, "records are dropped by track, and stand by raw names")                                            \
    X('k', TidyOrderBare, "tracks stand in order of their first names without a remark")                                     \
    X('k', TidyOrderKept, "tracks stand where the raw name of their first kept record appears")                              \
    X('k', TidyRemarkCut, "a tidied record loses its remark")                                                                \
    X('k', TidyFirstName, "a tidied record has the name of its track's first")                                               \
    X('k', TidyIksCut, "IK names lose their remark in tidying")                                                              \
    X('k', TidyModelCut, "the model name loses its remark in tidying")                                                       \
    X('k', SeasonBonesRaw, "the season counts raw bone names")                                                               \
    X('k', SeasonMorphsRaw, "the season counts raw morph names")                                                             \
    X('k', SplitSizesTracks, "vmd_split_sizes counts names up to the line feed")

enum Alteration : int {
    AsWritten,
#define VMD_ALTERATION_NAME(letter, name, what) name,
    VMD_ALTERATIONS(VMD_ALTERATION_NAME)
#undef VMD_ALTERATION_NAME
        AlterationsEnd
};

struct AlterationNote {
    char letter;
    const char *what;
};

inline constexpr AlterationNote alteration_notes[] = {
    {' ', "as written"},
#define VMD_ALTERATION_NOTE(letter, name, what) {letter, what},
    VMD_ALTERATIONS(VMD_ALTERATION_NOTE)
#undef VMD_ALTERATION_NOTE
};

inline int alteration = AsWritten;

inline bool altered(Alteration which) { return alteration == which; }

} // namespace model

#endif
